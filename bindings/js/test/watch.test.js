import assert from 'node:assert/strict';
import { test } from 'node:test';
import { MAX_FILE, Refusal, ROOT, enoughImage, mostSteps, refusals } from '../honecerise.js';
import { fresh, refusal } from './library.js';

const library = await fresh();
const text = (bytes) => new TextDecoder().decode(bytes);

test('a copy is taken while the watch goes on', () => {
    const watch = library.layOut({ inodes: 16, blocks: 64, imageBlocks: enoughImage(16) });
    const laps = watch.createDirectory(ROOT, 'laps');
    const run = watch.createFile(laps, 'run1');
    assert.equal(watch.write(run, 0, '71.2 70.8'), 9);
    assert.deepEqual(watch.status(), { state: 'idle', locked: null, steps: 0 });
    watch.start();
    assert.equal(watch.step(), 1);
    assert.deepEqual(watch.status(), { state: 'running', locked: 1, steps: 1 });
    assert.equal(watch.copy(), null);
    watch.createFile(laps, 'run2');
    while (watch.status().state === 'running') watch.burst(8);
    assert.ok(watch.status().steps <= mostSteps(16));
    const copy = watch.copy();
    assert.deepEqual(copy.entries(laps).map((entry) => entry.text), ['run1', 'run2']);
    assert.equal(text(copy.contents(run)), '71.2 70.8');
    assert.equal(text(library.filesOfImage(watch.image()).contents(run)), '71.2 70.8');
    watch.free();
});

test('every file call, and what it refuses', () => {
    const watch = library.layOut({ inodes: 6, blocks: 8 });
    const is = (kind, call) => assert.equal(refusal(call), kind);
    const d = watch.createDirectory(ROOT, 'd');
    const f = watch.createFile(d, 'f');
    assert.equal(watch.lookUp(d, 'F'), f);
    assert.equal(watch.lookUp(d, new Uint8Array([0x66])), f);
    assert.equal(watch.write(f, 0, new Uint8Array([1, 2, 3, 4])), 4);
    assert.deepEqual(watch.read(f), new Uint8Array([1, 2, 3, 4]));
    assert.deepEqual(watch.read(f, 1, 2), new Uint8Array([2, 3]));
    assert.deepEqual(watch.read(f, 4n), new Uint8Array(0));
    assert.deepEqual(watch.read(f, 0, 2n ** 64n - 1n), new Uint8Array([1, 2, 3, 4]));
    assert.equal(watch.shorten(f, 2), 2);
    watch.link(ROOT, 'l', f);
    watch.rename(ROOT, 'l', d, 'm');
    watch.unlink(d, 'm');
    is('NameAbsent', () => watch.unlink(d, 'm'));
    is('IllegalName', () => watch.createFile(ROOT, ''));
    is('IllegalName', () => watch.createFile(ROOT, 'fifteen letters'));
    is('IllegalName', () => watch.lookUp(ROOT, 'a/b'));
    is('IllegalName', () => watch.createFile(ROOT, 'x'.repeat(100000)));
    is('WrongInode', () => watch.createFile(f, 'x'));
    is('WrongInode', () => watch.read(2n ** 64n - 1n));
    is('WrongInode', () => watch.read(2 ** 32 + f));
    is('NameTaken', () => watch.createFile(d, 'F'));
    is('NotEmpty', () => watch.unlink(ROOT, 'd'));
    is('PastEnd', () => watch.read(f, 3));
    is('PastEnd', () => watch.write(f, 0, new Uint8Array(MAX_FILE + 1)));
    is('IntoItself', () => watch.rename(ROOT, 'd', d, 'e'));
    is('NoBlocks', () => watch.write(f, 0, new Uint8Array(MAX_FILE)));
    is('WrongState', () => watch.step());
    is('WrongState', () => watch.burst(1));
    is('BadCount', () => watch.burst(0));
    is('BadBuffer', () => watch.start()); // it has no image
    for (const name of ['g', 'h', 'i']) watch.createFile(ROOT, name);
    is('NoInode', () => watch.createFile(ROOT, 'j'));
    watch.free();
});

test('a rename replaces, unless the name must be new', () => {
    const watch = library.layOut({ inodes: 8, blocks: 8 });
    const is = (kind, call) => assert.equal(refusal(call), kind);
    const names = () => [...watch.files().all()].map(({ directory, text, inode }) => [directory, text, inode]);
    const d = watch.createDirectory(ROOT, 'd');
    watch.createFile(ROOT, 'best');
    const run = watch.createFile(d, 'run');
    is('NameTaken', () => watch.renameNew(d, 'run', ROOT, 'Best'));
    assert.equal(names().length, 3);
    watch.rename(d, 'run', ROOT, 'Best');
    assert.deepEqual(names(), [[ROOT, 'd', d], [ROOT, 'Best', run]]);
    watch.renameNew(ROOT, 'best', d, 'run');
    watch.link(ROOT, 'twin', run);
    watch.rename(ROOT, 'twin', d, 'RUN'); // the same file's already
    assert.deepEqual(names(), [[ROOT, 'd', d], [ROOT, 'twin', run], [d, 'run', run]]);
    const e = watch.createDirectory(ROOT, 'e');
    is('KindsDiffer', () => watch.rename(ROOT, 'twin', ROOT, 'e'));
    is('NotEmpty', () => watch.rename(ROOT, 'twin', ROOT, 'd'));
    is('NotEmpty', () => watch.rename(ROOT, 'e', ROOT, 'd'));
    watch.rename(ROOT, 'd', ROOT, 'e');
    assert.equal(watch.files().kind(e), null);
    assert.equal(watch.lookUp(ROOT, 'e'), d);
    watch.free();
});

test('a busy file, and an image that is too small', () => {
    const watch = library.layOut({ inodes: 4, blocks: 8, imageBlocks: 1 });
    const f = watch.createFile(ROOT, 'f');
    watch.write(f, 0, new Uint8Array(100));
    watch.start();
    assert.equal(refusal(() => watch.start()), 'WrongState');
    while (watch.status().locked !== f) watch.step();
    assert.equal(refusal(() => watch.write(f, 0, 'x')), 'Busy');
    watch.createFile(ROOT, 'g');
    assert.equal(refusal(() => watch.rename(ROOT, 'g', ROOT, 'f')), 'Busy'); // it would replace what is locked
    assert.equal(refusal(() => watch.step()), 'ImageFull');
    assert.equal(watch.status().state, 'stopped');
    watch.free();
});

test('a refusal is an error with a kind, a number and a reason', () => {
    const watch = library.layOut({ inodes: 2, blocks: 2 });
    watch.createFile(ROOT, 'f');
    assert.throws(() => watch.createFile(ROOT, 'f'), (error) => {
        assert.ok(error instanceof Refusal && error instanceof Error);
        assert.equal(error.number, refusals.NameTaken);
        assert.equal(error.message, 'the new name is taken by another entry (7)');
        return true;
    });
    watch.free();
});

test('layouts that are not allowed keep no memory', () => {
    const before = library.used;
    for (const counts of [{ inodes: 0, blocks: 1 }, { inodes: 257, blocks: 1 }, { inodes: 1, blocks: 1025 },
        { inodes: 1, blocks: 1, imageBlocks: 4097 }, { inodes: 2n ** 63n, blocks: 1 }])
        assert.equal(refusal(() => library.layOut(counts)), 'BadBuffer');
    assert.equal(library.used, before);
});

test('bytes from elsewhere', () => {
    const watch = library.layOut({ inodes: 4, blocks: 4 });
    watch.write(watch.createFile(ROOT, 'f'), 0, 'abc');
    const [store, desk] = [watch.store(), watch.desk()];
    const again = library.over({ store, desk });
    store.fill(9); // it was copied
    assert.equal(text(again.read(again.lookUp(ROOT, 'f'))), 'abc');
    const spoilt = watch.store();
    spoilt[9] = 1;
    const wrong = library.over({ store: spoilt, desk });
    assert.equal(refusal(() => wrong.lookUp(ROOT, 'f')), 'UnsoundStore');
    assert.equal(wrong.files(), null);
    assert.equal(library.filesOfStore(spoilt), null);
    const short = library.over({ store: watch.store(), desk: desk.subarray(1) });
    assert.equal(refusal(() => short.status()), 'BadBuffer');
    for (const w of [watch, again, wrong, short]) w.free();
});

test('numbers and names of the wrong type are thrown out', () => {
    const watch = library.layOut({ inodes: 4, blocks: 4 });
    for (const n of [-1, 1.5, NaN, Infinity, 2 ** 53, -1n, 2n ** 64n])
        assert.throws(() => watch.read(n), RangeError, String(n));
    for (const n of ['1', null, undefined, {}, true]) assert.throws(() => watch.read(n), TypeError, String(n));
    for (const name of [1, null, undefined, ['a'], new Uint16Array(1)])
        assert.throws(() => watch.createFile(ROOT, name), TypeError);
    assert.throws(() => watch.createFile(ROOT, 'a\ud800'), TypeError);
    assert.throws(() => library.over({ store: 'abc', desk: new Uint8Array(0) }), TypeError);
    const f = watch.createFile(ROOT, 'Läufe'); // six bytes
    assert.equal(watch.files().find(ROOT, 'Läufe').inode, f);
    assert.equal(watch.files().find(ROOT, 'läufe').inode, f);
    assert.equal(watch.files().entries(ROOT)[0].name.length, 6);
    watch.free();
});
