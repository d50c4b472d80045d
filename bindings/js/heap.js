// Pieces of the library's linear memory. The library itself allocates nothing: what lies behind its own data is all ours.

const ALIGNMENT = 8; // lists of times and dates want 4, the state's numbers 8
const PAGE = 65536;

export class Heap {
    #memory;
    #free; // [at, end] of each free piece, by place, no two of them touching
    #taken = new Map(); // length of each piece in use, by place

    constructor(memory, base) {
        const from = Math.ceil(base / ALIGNMENT) * ALIGNMENT;
        this.#memory = memory;
        this.#free = [[from, memory.buffer.byteLength]];
    }

    /** A view of bytes, good until the next piece is taken: memory that grows has another buffer. */
    bytes(at, length) {
        return new Uint8Array(this.#memory.buffer, at, length);
    }

    view() {
        return new DataView(this.#memory.buffer);
    }

    /** How many bytes are in use. */
    get used() {
        let sum = 0;
        for (const length of this.#taken.values()) sum += length;
        return sum;
    }

    /** A zeroed piece: where it stands. The memory grows if it must; where it can't, a RangeError is thrown and all stays. */
    take(length) {
        const room = Math.max(Math.ceil(length / ALIGNMENT) * ALIGNMENT, ALIGNMENT);
        let k = this.#free.findIndex(([at, end]) => end - at >= room);
        if (k < 0) k = this.#grow(room);
        const piece = this.#free[k];
        const at = piece[0];
        piece[0] += room;
        if (piece[0] === piece[1]) this.#free.splice(k, 1);
        this.#taken.set(at, room);
        this.bytes(at, room).fill(0);
        return at;
    }

    give(at) {
        const length = this.#taken.get(at);
        if (length === undefined) return;
        this.#taken.delete(at);
        this.#insert(at, at + length);
    }

    /** Pieces for the time of one call. */
    during(lengths, use) {
        const places = [];
        try {
            for (const length of lengths) places.push(this.take(length));
            return use(...places);
        } finally {
            for (const at of places) this.give(at);
        }
    }

    #grow(room) {
        const end = this.#memory.buffer.byteLength;
        const last = this.#free.at(-1);
        const had = last && last[1] === end ? end - last[0] : 0;
        const pages = Math.ceil((room - had) / PAGE);
        this.#memory.grow(pages);
        this.#insert(end, end + pages * PAGE);
        return this.#free.length - 1;
    }

    /** A free piece, joined with those that it touches. */
    #insert(at, end) {
        let k = this.#free.findIndex((piece) => piece[0] > at);
        if (k < 0) k = this.#free.length;
        this.#free.splice(k, 0, [at, end]);
        if (k + 1 < this.#free.length && this.#free[k + 1][0] === end) {
            this.#free[k][1] = this.#free[k + 1][1];
            this.#free.splice(k + 1, 1);
        }
        if (k > 0 && this.#free[k - 1][1] === at) {
            this.#free[k - 1][1] = this.#free[k][1];
            this.#free.splice(k, 1);
        }
    }
}
