// Every call with every refusal that honecerise.d.ts says of it.
import assert from 'node:assert/strict';
import { readFileSync } from 'node:fs';
import { test } from 'node:test';
import { ROOT, refusals } from '../honecerise.js';
import { fresh, refusal, root } from './library.js';

const library = await fresh();
const [d, f, e] = [2, 3, 4];

/** In the root directories d and e; in d the file f, of two blocks. e has no block: four of twenty are taken. */
function stocked(imageBlocks = 20) {
    const watch = library.layOut({ inodes: 8, blocks: 20, imageBlocks });
    assert.equal(watch.createDirectory(ROOT, 'd'), d);
    assert.equal(watch.createFile(d, 'f'), f);
    assert.equal(watch.write(f, 0, new Uint8Array(100)), 100);
    assert.equal(watch.createDirectory(ROOT, 'e'), e);
    return watch;
}

function withoutInodes() {
    const watch = stocked();
    for (const name of ['1', '2', '3', '4']) watch.createFile(d, name);
    assert.equal(watch.files().freeInodes, 0);
    return watch;
}

function withoutBlocks() {
    const watch = stocked();
    const [first, second] = ['1', '2'].map((name) => watch.createFile(ROOT, name));
    watch.write(first, 0, new Uint8Array(768));
    watch.write(second, 0, new Uint8Array(256));
    assert.equal(watch.files().freeBlocks, 0);
    return watch;
}

/** All slots of e are used. */
function withoutSlots() {
    const watch = stocked();
    for (let k = 0; k < 48; k++) watch.link(e, `l${k}`, f);
    assert.equal(watch.files().entries(e).at(-1).slot, 47);
    return watch;
}

function running(imageBlocks) {
    const watch = stocked(imageBlocks);
    watch.start();
    return watch;
}

/** The copier has that inode locked. */
function locked(inode) {
    const watch = running();
    while (watch.status().locked !== inode) watch.step();
    return watch;
}

/** An image of one block, and the copy has the second to copy. */
function beforeFull() {
    const watch = running(1);
    while (watch.status().locked !== d) watch.step();
    return watch;
}

const date = (year, month, day) => ({ year, month, day });
const term = { first: date(2024, 1, 8), last: date(2024, 3, 28) };
const day = date(2024, 4, 1);

const create = (call) => ({
    IllegalName: () => stocked()[call](ROOT, ''),
    WrongInode: () => stocked()[call](f, 'x'),
    NameTaken: () => stocked()[call](ROOT, 'D'),
    NoInode: () => withoutInodes()[call](ROOT, 'x'),
    NoBlocks: () => withoutBlocks()[call](e, 'x'),
    NoSlot: () => withoutSlots()[call](e, 'x'),
    Busy: () => locked(d)[call](d, 'x'),
});
const rename = (call) => ({
    IllegalName: () => stocked()[call](d, 'f', ROOT, '..'),
    WrongInode: () => stocked()[call](d, 'f', f, 'x'),
    NameAbsent: () => stocked()[call](d, 'x', ROOT, 'x'),
    IntoItself: () => stocked()[call](ROOT, 'd', d, 'x'),
    NoBlocks: () => withoutBlocks()[call](d, 'f', e, 'x'),
    NoSlot: () => withoutSlots()[call](d, 'f', e, 'x'),
    Busy: () => locked(f)[call](d, 'f', ROOT, 'x'),
});

/** By class and call. */
const refused = {
    Watch: {
        lookUp: {
            IllegalName: () => stocked().lookUp(ROOT, 'a/b'),
            WrongInode: () => stocked().lookUp(f, 'x'),
            NameAbsent: () => stocked().lookUp(ROOT, 'x'),
        },
        read: { WrongInode: () => stocked().read(d), PastEnd: () => stocked().read(f, 101) },
        createFile: create('createFile'),
        createDirectory: create('createDirectory'),
        write: {
            WrongInode: () => stocked().write(d, 0, 'x'),
            PastEnd: () => stocked().write(f, 101, 'x'),
            NoBlocks: () => withoutBlocks().write(f, 100, new Uint8Array(29)),
            Busy: () => locked(f).write(f, 0, 'x'),
        },
        shorten: {
            WrongInode: () => stocked().shorten(d, 0),
            PastEnd: () => stocked().shorten(f, 101),
            Busy: () => locked(f).shorten(f, 0),
        },
        link: {
            IllegalName: () => stocked().link(ROOT, 'fifteen letters', f),
            WrongInode: () => stocked().link(ROOT, 'x', d),
            NameTaken: () => stocked().link(d, 'F', f),
            NoBlocks: () => withoutBlocks().link(e, 'x', f),
            NoSlot: () => withoutSlots().link(e, 'x', f),
            Busy: () => locked(f).link(ROOT, 'x', f),
        },
        unlink: {
            IllegalName: () => stocked().unlink(ROOT, '.'),
            WrongInode: () => stocked().unlink(f, 'x'),
            NameAbsent: () => stocked().unlink(ROOT, 'x'),
            NotEmpty: () => stocked().unlink(ROOT, 'd'),
            Busy: () => locked(f).unlink(d, 'f'),
        },
        rename: {
            ...rename('rename'),
            NotEmpty: () => stocked().rename(ROOT, 'e', ROOT, 'd'),
            KindsDiffer: () => stocked().rename(d, 'f', ROOT, 'e'),
        },
        renameNew: { ...rename('renameNew'), NameTaken: () => stocked().renameNew(d, 'f', ROOT, 'E') },
        start: { BadBuffer: () => stocked(0).start(), WrongState: () => running().start() },
        step: { WrongState: () => stocked().step(), ImageFull: () => beforeFull().step() },
        burst: {
            BadCount: () => running().burst(65),
            WrongState: () => stocked().burst(1),
            ImageFull: () => beforeFull().burst(2),
        },
    },
    Honecerise: {
        layOut: { BadBuffer: () => library.layOut({ inodes: 257, blocks: 1 }) },
        deal: { BadTurn: () => library.deal(Array(16).fill(true), 65, 0) },
        matchLaps: { BadTimes: () => library.matchLaps([2, 2], []) },
        keep: {
            BadBuffer: () => library.keep(Array(257).fill(day), [], day),
            NoDate: () => library.keep([date(2023, 2, 29)], [], day),
            BadTerms: () => library.keep([], [term, term], day),
            AfterAsked: () => library.keep([date(2024, 4, 2)], [term], day),
        },
    },
    Files: {
        entries: { WrongInode: () => stocked().files().entries(f) },
        contents: { WrongInode: () => stocked().files().contents(d) },
        read: { WrongInode: () => stocked().files().read(d), PastEnd: () => stocked().files().read(f, 101) },
    },
};

for (const [name, calls] of Object.entries(refused))
    test(`${name}: each call with each of its refusals`, () => {
        for (const [call, kinds] of Object.entries(calls))
            for (const [kind, make] of Object.entries(kinds)) assert.equal(refusal(make), kind, call);
    });

test('the refusals above are those of the declarations', () => {
    const declared = readFileSync(new URL('bindings/js/honecerise.d.ts', root), 'utf8');
    for (const [name, calls] of Object.entries(refused)) {
        const [, body] = declared.match(new RegExp(`^export class ${name} \\{\n(.*?)^\\}`, 'ms'));
        const said = {};
        // a comment, then the call that it is about
        for (const [, comment, call] of body.matchAll(/\/\*\*((?:(?!\*\/).)*)\*\/\n {4}(\w+)\(/gs)) {
            const kinds = [...comment.matchAll(/`(\w+)`/g)].map(([, kind]) => kind).filter((kind) => kind in refusals);
            if (kinds.length > 0) said[call] = kinds.sort();
        }
        const tried = Object.entries(calls).map(([call, kinds]) => [call, Object.keys(kinds).sort()]);
        assert.deepEqual(Object.fromEntries(tried), said, name);
    }
});

test('buffers that are wired wrong, to each call of a watch', () => {
    const calls = {
        lookUp: [ROOT, 'd'], read: [f], createFile: [ROOT, 'x'], createDirectory: [ROOT, 'x'], write: [f, 0, 'x'],
        shorten: [f, 1], link: [ROOT, 'x', f], unlink: [d, 'f'], rename: [d, 'f', ROOT, 'x'], renameNew: [d, 'f', ROOT, 'x'],
        start: [], step: [], burst: [1], status: [],
    };
    assert.deepEqual(Object.keys(refused.Watch).filter((call) => !(call in calls)), []);
    const whole = running();
    const [store, image, desk] = [whole.store(), whole.image(), whole.desk()];
    const spoilt = (bytes, at) => bytes.map((byte, k) => (k === at ? 1 : byte));
    const wrong = [
        ['BadBuffer', { store: store.subarray(1), image, desk }],
        ['BadBuffer', { store, image, desk: desk.subarray(1) }],
        ['UnsoundStore', { store: spoilt(store, 9), image, desk }],
        ['BadDesk', { store, image, desk: spoilt(desk, 5) }],
        ['BadDesk', { store, image: spoilt(image, 8), desk }], // while a copy runs the image is looked at
    ];
    for (const [kind, buffers] of wrong)
        for (const [call, rest] of Object.entries(calls)) {
            const watch = library.over(buffers);
            const alone = ['lookUp', 'read'].includes(call) && buffers.store === store; // they take the store only
            assert.equal(refusal(() => watch[call](...rest)), alone ? 'taken' : kind, call);
            // nothing has changed
            assert.deepEqual([watch.store(), watch.image(), watch.desk()], [buffers.store, buffers.image, buffers.desk], call);
            watch.free();
        }
    whole.free();
});
