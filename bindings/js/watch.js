// A watch: store, image and desk, with all calls on them.
import { CHECKED, Files } from './files.js';
import { answered } from './refusal.js';
import { MAX_FILE } from './sizes.js';
import { bytesOf, number } from './values.js';

const STATES = ['idle', 'running', 'finished', 'stopped'];

/** A piece of the library's memory, as the C names take it: a pointer and a length. */
class Piece {
    constructor(at, length) {
        this.at = at;
        this.length = length;
        this.words = [at, BigInt(length)];
    }
}

/**
 * A store, the image that copies of it go to, and the copier's desk, in the library's memory. `free` gives the memory back; a
 * watch that nothing holds any more gives it back by itself.
 */
export class Watch {
    #library;
    #buffers; // store, image and desk; null when given back

    /** The library makes it: see `Honecerise.layOut` and `Honecerise.over`. */
    constructor(library, buffers) {
        this.#library = library;
        this.#buffers = buffers;
    }

    /**
     * Three buffers, each zeroed, of a length, or with the bytes given; laid out if counts are given. Where that is refused, or
     * there is no memory, none is kept. @internal
     */
    static allocate({ c, heap, registry }, contents, counts) {
        const buffers = [];
        try {
            for (const given of contents) {
                const length = typeof given === 'number' ? given : given.length;
                const at = heap.take(length);
                buffers.push(new Piece(at, length));
                if (typeof given !== 'number') heap.bytes(at, length).set(given);
            }
            if (counts !== undefined) {
                const [store, , desk] = buffers;
                answered(c.honecerise_lay_out_store(...store.words, counts.inodes, counts.blocks));
                answered(c.honecerise_lay_out_desk(...desk.words, counts.inodes));
            }
        } catch (error) {
            for (const { at } of buffers) heap.give(at);
            throw error;
        }
        const watch = new Watch({ c, heap, registry }, buffers);
        registry.register(watch, buffers, watch);
        return watch;
    }

    /** Gives the memory back; every other call throws from then on. */
    free() {
        if (this.#buffers === null) return;
        this.#library.registry.unregister(this);
        for (const { at } of this.#buffers) this.#library.heap.give(at);
        this.#buffers = null;
    }

    #lent() {
        if (this.#buffers === null) throw new Error('the watch was freed');
        return this.#buffers;
    }

    #bytes(which) {
        const { at, length } = this.#lent()[which];
        return this.#library.heap.bytes(at, length).slice();
    }

    /** A copy of the store's bytes. */
    store() {
        return this.#bytes(0);
    }

    /** A copy of the image's bytes. */
    image() {
        return this.#bytes(1);
    }

    /** A copy of the desk's bytes. */
    desk() {
        return this.#bytes(2);
    }

    /** What the store holds; null if it is not sound. */
    files() {
        return this.#checked(0, 0);
    }

    /** What the finished copy holds; null while the image is no sound finished one. */
    copy() {
        return this.#checked(1, 1);
    }

    #checked(form, which) {
        const buffer = this.#lent()[which];
        const sound = this.#library.c.honecerise_check(form, ...buffer.words) === 1;
        return sound ? new Files(this.#bytes(which), CHECKED) : null;
    }

    /** A call over the three buffers, and what comes behind them. */
    #call(name, ...rest) {
        const words = this.#lent().flatMap((buffer) => buffer.words);
        return answered(this.#library.c[name](...words, ...rest));
    }

    /** The same with names or bytes in memory for as long as it takes; `rest` gets a pointer and a length of each. */
    #with(list, use) {
        const { heap } = this.#library;
        this.#lent();
        return heap.during(
            list.map((bytes) => bytes.length),
            (...places) => {
                places.forEach((at, k) => heap.bytes(at, list[k].length).set(list[k]));
                return use(...places.flatMap((at, k) => [at, BigInt(list[k].length)]));
            },
        );
    }

    // ---- looking and reading

    /** The inode that a name stands for. Refuses with `IllegalName`, `WrongInode`, `NameAbsent`. */
    lookUp(directory, name) {
        const n = number(directory, 'directory');
        return this.#with([bytesOf(name, 'name')], (...word) =>
            answered(this.#library.c.honecerise_look_up(...this.#lent()[0].words, n, ...word)),
        );
    }

    /** Bytes of a file from `offset` on, as many as there are, at most `length`. Refuses with `WrongInode`, `PastEnd`. */
    read(inode, offset = 0, length = MAX_FILE) {
        const n = number(inode, 'inode');
        const from = number(offset, 'offset');
        const most = number(length, 'length');
        const room = most < BigInt(MAX_FILE) ? Number(most) : MAX_FILE; // no file has more
        const { c, heap } = this.#library;
        const store = this.#lent()[0].words;
        return heap.during([room], (out) => {
            const count = answered(c.honecerise_read(...store, n, from, out, BigInt(room)));
            return heap.bytes(out, count).slice();
        });
    }

    // ---- changing the store

    /**
     * A new empty file: its inode. Refuses with `IllegalName`, `WrongInode`, `NameTaken`, `NoInode`, `NoBlocks`, `NoSlot`,
     * `Busy`.
     */
    createFile(directory, name) {
        return this.#create('honecerise_create_file', directory, name);
    }

    /** A new empty directory: its inode. Refuses as `createFile` does. */
    createDirectory(directory, name) {
        return this.#create('honecerise_create_directory', directory, name);
    }

    #create(call, directory, name) {
        const n = number(directory, 'directory');
        return this.#with([bytesOf(name, 'name')], (...word) => this.#call(call, n, ...word));
    }

    /**
     * Lays bytes over a file from `offset`, and grows it as needed: the new size. Refuses with `WrongInode`, `PastEnd`,
     * `NoBlocks`, `Busy`.
     */
    write(inode, offset, bytes) {
        const n = number(inode, 'inode');
        const from = number(offset, 'offset');
        return this.#with([bytesOf(bytes, 'bytes')], (...words) => this.#call('honecerise_write', n, from, ...words));
    }

    /** Cuts a file to `length`: the new size. Refuses with `WrongInode`, `PastEnd`, `Busy`. */
    shorten(inode, length) {
        return this.#call('honecerise_shorten', number(inode, 'inode'), number(length, 'length'));
    }

    /** A further name for a file. Refuses with `IllegalName`, `WrongInode`, `NameTaken`, `NoBlocks`, `NoSlot`, `Busy`. */
    link(directory, name, inode) {
        const n = number(directory, 'directory');
        const file = number(inode, 'inode');
        this.#with([bytesOf(name, 'name')], (...word) => this.#call('honecerise_link', n, ...word, file));
    }

    /** Takes a name out. Refuses with `IllegalName`, `WrongInode`, `NameAbsent`, `NotEmpty`, `Busy`. */
    unlink(directory, name) {
        this.#create('honecerise_unlink', directory, name);
    }

    /**
     * Another name, another directory, or both; an entry that has the new name is replaced. Refuses with `IllegalName`,
     * `WrongInode`, `NameAbsent`, `NotEmpty`, `IntoItself`, `KindsDiffer`, `NoBlocks`, `NoSlot`, `Busy`.
     */
    rename(directory, name, to, toName) {
        this.#rename('honecerise_rename', directory, name, to, toName);
    }

    /**
     * The same, but it replaces nothing. Refuses with `IllegalName`, `WrongInode`, `NameAbsent`, `NameTaken`, `IntoItself`,
     * `NoBlocks`, `NoSlot`, `Busy`.
     */
    renameNew(directory, name, to, toName) {
        this.#rename('honecerise_rename_new', directory, name, to, toName);
    }

    #rename(call, directory, name, to, toName) {
        const n = number(directory, 'directory');
        const m = number(to, 'directory');
        this.#with([bytesOf(name, 'name'), bytesOf(toName, 'name')], (at, length, toAt, toLength) =>
            this.#call(call, n, at, length, m, toAt, toLength),
        );
    }

    // ---- the copier

    /** Begins a copy, and writes over the whole image. Refuses with `BadBuffer` where there is none, and with `WrongState`. */
    start() {
        this.#call('honecerise_start');
    }

    /** One short step: the steps of this copy so far. Refuses with `WrongState`, and with `ImageFull`, which stops it. */
    step() {
        return this.#call('honecerise_step');
    }

    /** Up to 64 steps in one call: how many were accepted. Refuses with `BadCount`, and as `step` does. */
    burst(count) {
        return this.#call('honecerise_burst', number(count, 'count'));
    }

    /** State, locked inode and steps. */
    status() {
        const { heap } = this.#library;
        this.#lent();
        return heap.during([24], (at) => {
            this.#call('honecerise_state', at, at + 8, at + 16);
            const [state, locked, steps] = [0, 8, 16].map((k) => Number(heap.view().getBigUint64(at + k, true)));
            return { state: STATES[state], locked: locked === 0 ? null : locked, steps };
        });
    }
}
if (Symbol.dispose !== undefined) Watch.prototype[Symbol.dispose] = Watch.prototype.free;
