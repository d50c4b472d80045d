//! Names as words: the 14 bytes of a name, zero-filled, are one number, and so are the 16 of an entry.
use super::refusal::ILLEGAL_NAME;

const ONES: u128 = u128::from_le_bytes([1; 16]);
const HIGHS: u128 = ONES << 7;
const SLASHES: u128 = u128::from_le_bytes([b'/'; 16]);
const DOT: u128 = 0x2e;
const DOTS: u128 = 0x2e2e;

fn has_zero_byte(w: u128) -> bool {
    w.wrapping_sub(ONES) & !w & HIGHS != 0
}

/// The word with small letters for capital ones: names are compared so.
pub fn folded(w: u128) -> u128 {
    let low = w & !HIGHS;
    let capitals = (low + ONES * 63) & !(low + ONES * 37) & !w & HIGHS;
    w | capitals >> 2
}

/// A name of k bytes, 1 to 14.
fn legal_bytes(w: u128, k: usize) -> bool {
    !has_zero_byte(w | u128::MAX << (8 * k)) && !has_zero_byte(w ^ SLASHES) && w != DOT && w != DOTS
}

/// The word of an entry holds a legal name: its bytes up to the last that is not zero.
pub fn legal_word(w: u128) -> bool {
    w != 0 && legal_bytes(w, 16 - w.leading_zeros() as usize / 8)
}

/// The word of a legal name.
pub fn word(name: &[u8]) -> Result<u128, u8> {
    if !(1..=14).contains(&name.len()) {
        return Err(ILLEGAL_NAME);
    }
    let mut bytes = [0; 16];
    bytes[..name.len()].copy_from_slice(name);
    let w = u128::from_le_bytes(bytes);
    if legal_bytes(w, name.len()) { Ok(w) } else { Err(ILLEGAL_NAME) }
}

/// An entry's inode number and the word of its name.
pub fn split(entry: &[u8; 16]) -> (usize, u128) {
    let w = u128::from_le_bytes(*entry);
    (w as u16 as usize, w >> 16)
}

pub fn entry(inode: usize, name: u128) -> [u8; 16] {
    (name << 16 | inode as u128).to_le_bytes()
}
