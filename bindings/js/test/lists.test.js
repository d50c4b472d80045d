// The calls without a store on the vectors of the programs turns, matched and kept.
import assert from 'node:assert/strict';
import { readFileSync } from 'node:fs';
import { test } from 'node:test';
import { fresh, root } from './library.js';

const library = await fresh();

/** Lines and their answers, without those at the edges of the format. */
function vectors(program) {
    const [asked, answers] = ['stdin', 'stdout'].map((file) =>
        readFileSync(new URL(`crates/${program}/${file}`, root), 'utf8').split('\n'),
    );
    return asked.map((line, k) => [line.split(' => ')[0], answers[k]]).filter(([, answer]) => answer && answer !== 'err');
}

/** The call's answer as the program prints it. */
function printed(call, print) {
    try {
        return ['ok', ...print(call())].join(' ');
    } catch (error) {
        if (error.name !== 'Refusal') throw error;
        return `no ${error.number}`;
    }
}

test('turns', () => {
    const lines = vectors('turns');
    assert.ok(lines.length > 300);
    for (const [line, answer] of lines) {
        const [, flags, steps, last] = line.split(' ');
        // beyond 64 bits the program takes the largest number
        const most = (n) => (BigInt(n) < 2n ** 64n ? BigInt(n) : 2n ** 64n - 1n);
        const call = () => library.deal([...flags].map((flag) => flag === '1'), most(steps), most(last));
        assert.equal(printed(call, (turn) => [...turn.counts, turn.last]), answer, line);
    }
});

test('laps', () => {
    const lines = vectors('matched');
    assert.ok(lines.length > 300);
    for (const [line, answer] of lines) {
        const [w, , ...times] = line.split(' ').slice(1).map(Number);
        const call = () => library.matchLaps(times.slice(0, w), Uint32Array.from(times.slice(w)));
        const print = ({ pairs, aloneWatch, aloneMat }) =>
            [pairs.length, aloneWatch.length, aloneMat.length, ...pairs.flat(), ...aloneWatch, ...aloneMat];
        assert.equal(printed(call, print), answer, line);
    }
});

test('copies', () => {
    const lines = vectors('kept');
    assert.ok(lines.length > 300);
    const date = (n) => ({ year: Math.floor(n / 10000), month: Math.floor(n / 100) % 100, day: n % 100 });
    for (const [line, answer] of lines) {
        const [asked, t, ...dates] = line.split(' ').slice(1).map(Number);
        const terms = Array.from({ length: t }, (_, k) => ({ first: date(dates[2 * k]), last: date(dates[2 * k + 1]) }));
        const call = () => library.keep(dates.slice(2 * t).map(date), terms, date(asked));
        const print = ({ count, kept }) => [count, ...(kept.length ? [kept.map((k) => (k ? 'k' : 'g')).join('')] : [])];
        assert.equal(printed(call, print), answer, line);
    }
});

test('lists of the wrong type are thrown out', () => {
    assert.throws(() => library.deal([true], 1, 0), TypeError);
    assert.throws(() => library.deal(Array(16).fill(1), 1, 0), TypeError);
    assert.throws(() => library.matchLaps([1.5], []), RangeError);
    assert.throws(() => library.matchLaps([2 ** 32], []), RangeError);
    assert.throws(() => library.matchLaps(7, []), TypeError);
    assert.throws(() => library.keep([20240101], [], { year: 2024, month: 1, day: 1 }), TypeError);
    const wrong = { year: 2024, month: 100, day: 1 };
    assert.throws(() => library.keep([wrong], [], { year: 2024, month: 1, day: 1 }), { kind: 'NoDate' });
});
