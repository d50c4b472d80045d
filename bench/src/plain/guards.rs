//! Refusals 1 to 3, which come before all others: lengths, one check of the store, then the desk and the image of a running copy.
use super::desk::{self, Desk};
use super::refusal::{BAD_BUFFER, BAD_DESK, UNSOUND_STORE};
use super::sound::body_right;
use super::view::{get16, Shape, View, ADDRESS_PLACE, DIRECT, MOST_STORE_BLOCKS};

/// A call on the store alone.
pub fn store_alone(store: &[u8]) -> Result<Shape, u8> {
    let shape = framed(store)?;
    sound(store, shape)
}

pub fn framed(store: &[u8]) -> Result<Shape, u8> {
    Shape::framed(store, MOST_STORE_BLOCKS).ok_or(BAD_BUFFER)
}

fn sound(store: &[u8], shape: Shape) -> Result<Shape, u8> {
    if body_right(store, shape, false) { Ok(shape) } else { Err(UNSOUND_STORE) }
}

/// A call on all three buffers: the store's counts, and the desk's header.
pub fn three(store: &[u8], image: &[u8], notes: &[u8]) -> Result<(Shape, Desk), u8> {
    let shape = framed(store)?;
    if !desk::framed(notes) {
        return Err(BAD_BUFFER);
    }
    after_lengths(store, shape, image, notes)
}

pub fn after_lengths(store: &[u8], shape: Shape, image: &[u8], notes: &[u8]) -> Result<(Shape, Desk), u8> {
    sound(store, shape)?;
    let desk = Desk::read(notes);
    if desk.fits(notes) && desk.n == shape.n && (!desk.running() || image_fits(store, shape, image, desk)) {
        Ok((shape, desk))
    } else {
        Err(BAD_DESK)
    }
}

/// The locked inode, if there is one, is a long file of the store.
pub fn locked_long(store: &[u8], shape: Shape, desk: Desk) -> bool {
    desk.locked != 0 && View::of(store, shape).inode(desk.locked).is_long()
}

/// The image is the one that the desk's running copy fills.
fn image_fits(store: &[u8], stored: Shape, image: &[u8], desk: Desk) -> bool {
    let shape = Shape { n: desk.n, b: desk.blocks };
    image.len() == 16 + 32 * shape.n + 64 * shape.b
        && get16(image, 0) == shape.n
        && get16(image, 2) == shape.b
        && get16(image, 10) == 1
        && image[8] == 0
        && addresses_fit(&View::of_copy(image, shape, desk.locked, locked_long(store, stored, desk)), desk)
}

/// No address is above the block count, and a long file of which twelve blocks are copied has its address block.
pub fn addresses_fit(v: &View, desk: Desk) -> bool {
    v.direct_addresses().fold(0, u16::max) as usize <= desk.blocks
        && v.further_addresses().fold(0, u16::max) as usize <= desk.blocks
        && !(desk.copied >= DIRECT && v.has_further(desk.locked) && v.addresses_of(desk.locked)[ADDRESS_PLACE] == [0; 2])
}
