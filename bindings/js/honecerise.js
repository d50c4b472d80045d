// The file store of a running watch, and a copy of it that is taken while the watch goes on recording: the proved library as
// WebAssembly, with JavaScript's types. The wrapping is tested, not proved.
import { CHECKED, Files } from './files.js';
import { Heap } from './heap.js';
import { Refusal, answered } from './refusal.js';
import { BAYS, MAX_BLOCKS, MAX_IMAGE, MAX_INODES, deskLength, imageLength, storeLength } from './sizes.js';
import { buffer, dateNumber, listOf, number, times } from './values.js';
import { Watch } from './watch.js';

export { Files } from './files.js';
export { Refusal, refusals } from './refusal.js';
export * from './sizes.js';
export { Watch } from './watch.js';

/** The library, loaded. All its watches lie in one memory; `load` makes another library with another memory. */
export class Honecerise {
    #shared;

    constructor(instance) {
        const c = instance.exports;
        const heap = new Heap(c.memory, c.__heap_base.value);
        const registry = new FinalizationRegistry((places) => {
            for (const { at } of places) heap.give(at);
        });
        this.#shared = { c, heap, registry };
    }

    /** How many bytes of the memory watches take. */
    get used() {
        return this.#shared.heap.used;
    }

    /** An empty store, an idle desk, and room for an image of so many blocks. Refuses with `BadBuffer`. */
    layOut({ inodes, blocks, imageBlocks = 0 }) {
        const [n, b] = [number(inodes, 'inodes'), number(blocks, 'blocks')];
        const i = number(imageBlocks, 'imageBlocks');
        // before any memory is taken: the library would say the same
        if (n < 1n || n > MAX_INODES || b < 1n || b > MAX_BLOCKS || i > MAX_IMAGE) throw new Refusal('BadBuffer');
        const image = i === 0n ? 0 : imageLength(Number(n), Number(i));
        const lengths = [storeLength(Number(n), Number(b)), image, deskLength(Number(n))];
        return Watch.allocate(this.#shared, lengths, { inodes: n, blocks: b });
    }

    /** A watch over bytes as they stand, from an earlier time or from elsewhere; they are copied. Each call looks at them. */
    over({ store, image = new Uint8Array(0), desk }) {
        return Watch.allocate(this.#shared, [buffer(store, 'store'), buffer(image, 'image'), buffer(desk, 'desk')]);
    }

    /** The files of a store, if the bytes are a sound one, else null. The bytes are copied. */
    filesOfStore(bytes) {
        return this.#files(0, buffer(bytes, 'bytes'));
    }

    /** The files of a finished image, if the bytes are a sound one, else null. The bytes are copied. */
    filesOfImage(bytes) {
        return this.#files(1, buffer(bytes, 'bytes'));
    }

    #files(form, bytes) {
        const { c, heap } = this.#shared;
        const own = new Uint8Array(bytes); // a Buffer's own slice would be a view of the caller's bytes
        return heap.during([own.length], (at) => {
            heap.bytes(at, own.length).set(own);
            return c.honecerise_check(form, at, BigInt(own.length)) === 1 ? new Files(own, CHECKED) : null;
        });
    }

    /** Deals the steps of a turn among the bays that run: sixteen flags, bay 0 first. Refuses with `BadTurn`. */
    deal(running, steps, last) {
        const flags = listOf(running, 'running');
        if (flags.length !== BAYS || flags.some((flag) => typeof flag !== 'boolean'))
            throw new TypeError('running is sixteen booleans');
        const mask = flags.reduce((sum, flag, bay) => (flag ? sum | (1 << bay) : sum), 0);
        const [n, m] = [number(steps, 'steps'), number(last, 'last')];
        const { c, heap } = this.#shared;
        return heap.during([BAYS], (at) => {
            const bay = answered(c.honecerise_deal(mask, n, m, at));
            return { counts: Array.from(heap.bytes(at, BAYS)), last: bay };
        });
    }

    /** Pairs the crossings that a watch and the mat both recorded, in hundredths of a second. Refuses with `BadTimes`. */
    matchLaps(watch, mat) {
        const lists = [times(watch, 'watch'), times(mat, 'mat')];
        const [w, m] = lists.map((list) => list.length);
        const { c } = this.#shared;
        return this.#withNumbers([...lists, w, m, w, m], (words, read) => {
            const pairs = answered(c.honecerise_match_laps(...words));
            const pairedMat = read(3, pairs);
            return {
                pairs: read(2, pairs).map((time, k) => [time, pairedMat[k]]),
                aloneWatch: read(4, w - pairs),
                aloneMat: read(5, m - pairs),
            };
        });
    }

    /** Which of a case's copies are kept on the day asked. Refuses with `BadBuffer`, `NoDate`, `BadTerms`, `AfterAsked`. */
    keep(copies, terms, asked) {
        const dates = listOf(copies, 'copies').map(dateNumber);
        const days = listOf(terms, 'terms').flatMap(({ first, last }) => [dateNumber(first), dateNumber(last)]);
        const day = dateNumber(asked);
        const { c, heap } = this.#shared;
        return this.#withNumbers([dates, days], (words) =>
            heap.during([dates.length], (out) => {
                const count = answered(c.honecerise_keep(...words, day, out, BigInt(dates.length)));
                return { count, kept: Array.from(heap.bytes(out, dates.length), (flag) => flag === 1) };
            }),
        );
    }

    /** Lists of 32-bit numbers, or room for so many, in memory for as long as it takes: pointers and counts, and a reader. */
    #withNumbers(lists, use) {
        const { heap } = this.#shared;
        const counts = lists.map((list) => (typeof list === 'number' ? list : list.length));
        return heap.during(
            counts.map((count) => 4 * count),
            (...places) => {
                const view = heap.view();
                lists.forEach((list, k) => {
                    if (typeof list !== 'number') list.forEach((n, j) => view.setUint32(places[k] + 4 * j, n, true));
                });
                const read = (k, count) =>
                    Array.from({ length: count }, (_, j) => heap.view().getUint32(places[k] + 4 * j, true));
                return use(places.flatMap((at, k) => [at, BigInt(counts[k])]), read);
            },
        );
    }
}

/** Loads `honecerise.wasm`, which `targets/build wasm32` writes: its bytes, a compiled module, or a response of `fetch`. */
export async function load(source) {
    const given = await source;
    let module = given;
    if (!(given instanceof WebAssembly.Module)) {
        const isResponse = typeof Response !== 'undefined' && given instanceof Response;
        if (isResponse && !given.ok) throw new Error(`${given.url} answers ${given.status}`);
        module = await WebAssembly.compile(isResponse ? await given.arrayBuffer() : given);
    }
    return new Honecerise(await WebAssembly.instantiate(module));
}
