// What a sound store or a finished image holds, read by its layout.
import { Refusal } from './refusal.js';
import { bytesOf, number } from './values.js';

const HEADER = 16;
const ATTRIBUTES = 8;
const ADDRESSES = 24;
const BLOCK = 64;
const ENTRY = 16;
/** A file above so many bytes is long: its twelfth address names a block of further ones. */
const MAX_DIRECT = 768;
const ADDRESS_PLACE = 11;
const KINDS = [null, 'file', 'directory'];

/** Whoever has it has checked the bytes: the module's own parts. */
export const CHECKED = Symbol('checked');

/** A byte with a small letter for a capital one. */
const folded = (byte) => (byte >= 65 && byte <= 90 ? byte + 32 : byte);
const sameName = (a, b) => a.length === b.length && a.every((byte, k) => folded(byte) === folded(b[k]));

/**
 * The files and directories of a sound store or finished image. The library makes it, of a copy of bytes that the check said
 * yes to: so addresses and inode numbers in them are in range.
 */
export class Files {
    #bytes;

    /** @param {Uint8Array} bytes its own, of a sound store or finished image; a plain one, whose `slice` copies */
    constructor(bytes, token) {
        if (token !== CHECKED) throw new TypeError('the library makes it, of bytes that it has checked');
        this.#bytes = bytes;
    }

    #number(at) {
        return this.#bytes[at] | (this.#bytes[at + 1] << 8);
    }

    get inodes() {
        return this.#number(0);
    }

    get blocks() {
        return this.#number(2);
    }

    get freeInodes() {
        return this.#number(4);
    }

    get freeBlocks() {
        return this.#number(6);
    }

    /** Where an inode's attributes stand; undefined if there is no such inode. */
    #attributes(inode) {
        const n = Number(number(inode, 'inode'));
        return n >= 1 && n <= this.inodes ? HEADER + ATTRIBUTES * (n - 1) : undefined;
    }

    /** 'file' or 'directory'; null if it is free or there is none of that number. */
    kind(inode) {
        const at = this.#attributes(inode);
        return at === undefined ? null : KINDS[this.#bytes[at]];
    }

    /** The size of an inode that is of the kind needed. */
    #size(inode, needed) {
        if (this.kind(inode) !== needed) throw new Refusal('WrongInode');
        return this.#number(this.#attributes(inode) + 4);
    }

    #blockNamed(at) {
        return HEADER + (ATTRIBUTES + ADDRESSES) * this.inodes + BLOCK * (this.#number(at) - 1);
    }

    /** Where the block at a place inside an inode's size stands. */
    #block(inode, size, place) {
        const addresses = HEADER + ATTRIBUTES * this.inodes + ADDRESSES * (Number(inode) - 1);
        if (size > MAX_DIRECT && place >= ADDRESS_PLACE)
            return this.#blockNamed(this.#blockNamed(addresses + 2 * ADDRESS_PLACE) + 2 * (place - ADDRESS_PLACE));
        return this.#blockNamed(addresses + 2 * place);
    }

    /** A directory's entries in the order of its slots, empty ones left out. Refuses with `WrongInode`. */
    entries(directory) {
        const size = this.#size(directory, 'directory');
        const list = [];
        for (let slot = 0; slot < size / ENTRY; slot++) {
            const at = this.#block(directory, size, Math.floor((slot * ENTRY) / BLOCK)) + ((slot * ENTRY) % BLOCK);
            const inode = this.#number(at);
            if (inode !== 0) list.push(this.#entry(Number(directory), slot, inode, at));
        }
        return list;
    }

    #entry(directory, slot, inode, at) {
        const padded = this.#bytes.subarray(at + 2, at + ENTRY);
        const end = padded.indexOf(0);
        const name = padded.slice(0, end < 0 ? padded.length : end);
        const attributes = this.#attributes(inode);
        return {
            directory,
            slot,
            inode,
            name,
            text: new TextDecoder().decode(name),
            kind: KINDS[this.#bytes[attributes]],
            size: this.#number(attributes + 4),
            links: this.#number(attributes + 2),
        };
    }

    /** All entries, by directory and slot. */
    *all() {
        for (let inode = 1; inode <= this.inodes; inode++)
            if (this.kind(inode) === 'directory') yield* this.entries(inode);
    }

    /** The entry of a name, in whatever spelling, as look up finds it; undefined if there is none. */
    find(directory, name) {
        const bytes = bytesOf(name, 'name');
        if (this.kind(directory) !== 'directory') return undefined;
        return this.entries(directory).find((entry) => sameName(entry.name, bytes));
    }

    /** A file's bytes. Refuses with `WrongInode`. */
    contents(inode) {
        return this.read(inode);
    }

    /** Bytes of a file from `offset` on, at most `length` of them. Refuses with `WrongInode`, `PastEnd`. */
    read(inode, offset = 0, length = Number.MAX_SAFE_INTEGER) {
        const size = this.#size(inode, 'file');
        const from = Number(number(offset, 'offset'));
        const most = Number(number(length, 'length'));
        if (from > size) throw new Refusal('PastEnd');
        const out = new Uint8Array(Math.min(most, size - from));
        for (let done = 0; done < out.length; ) {
            const within = (from + done) % BLOCK;
            const part = Math.min(BLOCK - within, out.length - done);
            const at = this.#block(inode, size, Math.floor((from + done) / BLOCK)) + within;
            out.set(this.#bytes.subarray(at, at + part), done);
            done += part;
        }
        return out;
    }
}
