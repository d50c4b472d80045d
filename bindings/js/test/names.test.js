// Names and numbers: the refusals and limits are the paper's, honecerise.d.ts declares what honecerise.js has, and README shows
// examples/js/first.mjs and what it prints.
import assert from 'node:assert/strict';
import { execFileSync } from 'node:child_process';
import { readFileSync } from 'node:fs';
import { test } from 'node:test';
import { fileURLToPath } from 'node:url';
import * as honecerise from '../honecerise.js';
import { root } from './library.js';

const read = (path) => readFileSync(new URL(path, root), 'utf8');
const declared = read('bindings/js/honecerise.d.ts');
/** What a pattern's first group finds in a text, each time. */
const found = (text, pattern) => [...text.matchAll(pattern)].map((match) => match[1]);

const REFUSALS = {
    BadBuffer: 1, UnsoundStore: 2, BadDesk: 3, IllegalName: 4, WrongInode: 5, NameAbsent: 6, NameTaken: 7, NotEmpty: 8,
    PastEnd: 9, IntoItself: 10, NoInode: 11, NoBlocks: 12, NoSlot: 13, Busy: 14, WrongState: 15, ImageFull: 16, BadCount: 17,
    KindsDiffer: 18, BadTurn: 21, NoDate: 23, BadTerms: 24, AfterAsked: 25, BadTimes: 26,
};
const LIMITS = {
    ROOT: 1, MAX_INODES: 256, MAX_BLOCKS: 1024, MAX_IMAGE: 4096, MAX_NAME: 14, MAX_FILE: 2752, MAX_SLOTS: 48, MOST_BURST: 64,
    BAYS: 16, MOST_TURN: 64, MAX_TIMES: 512, MOST_APART: 50, MAX_COPIES: 256, MAX_TERMS: 12,
};

test('the refusals have their numbers, and each a reason', () => {
    assert.deepEqual({ ...honecerise.refusals }, REFUSALS);
    const messages = new Set();
    for (const [kind, number] of Object.entries(REFUSALS)) {
        const refusal = new honecerise.Refusal(kind);
        assert.deepEqual([refusal.name, refusal.kind, refusal.number], ['Refusal', kind, number]);
        assert.match(refusal.message, new RegExp(`^[a-z].{10,} \\(${number}\\)$`));
        messages.add(refusal.message);
    }
    assert.equal(messages.size, 23);
    assert.deepEqual(found(declared, /^ {4}\| '(\w+)'/gm), Object.keys(REFUSALS));
});

test('the limits and lengths have their values', () => {
    const numbers = Object.entries(honecerise).filter(([, value]) => typeof value === 'number');
    assert.deepEqual(Object.fromEntries(numbers), LIMITS);
    assert.deepEqual(
        Object.fromEntries([...declared.matchAll(/^export const (\w+): (\d+);$/gm)].map(([, name, value]) => [name, +value])),
        LIMITS,
    );
    const { storeLength, imageLength, deskLength, enoughImage, mostSteps } = honecerise;
    assert.deepEqual([storeLength(1, 1), storeLength(16, 64), storeLength(256, 1024)], [112, 4624, 73744]);
    assert.deepEqual([imageLength(1, 1), imageLength(16, 704), imageLength(256, 4096)], [112, 45584, 270352]);
    assert.deepEqual([deskLength(1), deskLength(16), deskLength(256)], [25, 160, 2320]);
    assert.deepEqual([enoughImage(1), enoughImage(16), enoughImage(93)], [44, 704, 4092]);
    assert.deepEqual([mostSteps(1), mostSteps(16), mostSteps(256)], [47, 737, 11777]);
});

test('the declarations have the names of the module', () => {
    assert.deepEqual(found(declared, /^export (?:const|function|class) (\w+)/gm).sort(), Object.keys(honecerise).sort());
    const classes = [...declared.matchAll(/^export class (\w+).*?\{\n(.*?)^\}/gms)];
    assert.equal(classes.length, 4);
    for (const [, name, body] of classes) {
        const members = found(body, /^ {4}(?:readonly )?(\w+)\??[(:]/gm).filter((member) => member !== 'constructor');
        const had = name === 'Refusal'
            ? Object.keys(new honecerise.Refusal('Busy'))
            : Object.getOwnPropertyNames(honecerise[name].prototype).filter((member) => member !== 'constructor');
        assert.deepEqual(members.sort(), had.sort(), name);
    }
});

test('README shows the example whole, and what it prints', () => {
    const page = read('README.md');
    const path = 'examples/js/first.mjs';
    assert.deepEqual(found(page, /^```js\n(.*?)^```$/gms), [read(path)]);
    const printed = execFileSync(process.execPath, [fileURLToPath(new URL(path, root))], { encoding: 'utf8' });
    const [shown] = found(page, /^node examples\/js\/first\.mjs\n```\n\nprints\n\n```\n(.*?)^```$/gms);
    assert.equal(printed, shown);
});
