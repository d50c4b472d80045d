// What callers hand in, as the library takes it. Numbers are never cut: what the library can't be handed is thrown out here,
// and what it does not allow it refuses itself.

const MOST = 2n ** 64n - 1n;

/** A number of 64 bits, from a safe integer or a bigint. */
export function number(value, what) {
    if (typeof value === 'bigint') {
        if (value >= 0n && value <= MOST) return value;
    } else if (typeof value === 'number') {
        if (Number.isSafeInteger(value) && value >= 0) return BigInt(value);
    } else {
        throw new TypeError(`${what} is no number`);
    }
    throw new RangeError(`${what} is no whole number from 0 to 2^53 - 1, or as a bigint to 2^64 - 1: ${value}`);
}

/** The bytes of a store, an image or a desk. */
export function buffer(value, what) {
    if (value instanceof Uint8Array) return value;
    throw new TypeError(`${what} is no Uint8Array`);
}

/** Bytes, from bytes or from a text, which goes as UTF-8. */
export function bytesOf(value, what) {
    if (value instanceof Uint8Array) return value;
    if (typeof value !== 'string') throw new TypeError(`${what} is neither a Uint8Array nor a string`);
    // half a character would become another one
    if (/\p{Surrogate}/u.test(value)) throw new TypeError(`${what} has half a character, which is no UTF-8`);
    return new TextEncoder().encode(value);
}

/** A list, from whatever can be gone through. */
export function listOf(values, what) {
    if (typeof values?.[Symbol.iterator] !== 'function') throw new TypeError(`${what} is no list`);
    return Array.from(values);
}

/** Numbers of 32 bits. */
export function times(values, what) {
    const list = listOf(values, what);
    for (const value of list)
        if (!Number.isInteger(value) || value < 0 || value > 0xffffffff)
            throw new RangeError(`${what}: ${String(value)} is no whole number of 32 bits`);
    return list;
}

/** A date as one number: year × 10,000 + month × 100 + day. Parts that would spoil the others' digits make it 0, no date. */
export function dateNumber({ year, month, day }) {
    for (const part of [year, month, day])
        if (typeof part !== 'number') throw new TypeError('a date has numbers year, month and day');
    const fits = (part, most) => Number.isInteger(part) && part >= 0 && part <= most;
    return fits(year, 9999) && fits(month, 99) && fits(day, 99) ? year * 10000 + month * 100 + day : 0;
}
