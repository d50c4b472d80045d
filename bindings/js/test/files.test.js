// Files against the library's own calls, on a store and on its finished image.
import assert from 'node:assert/strict';
import { test } from 'node:test';
import { Files, MAX_FILE, ROOT, enoughImage } from '../honecerise.js';
import { fresh, refusal } from './library.js';

const library = await fresh();

/** Directories and files of all sizes, long ones among them, with a gap among the slots. */
function filled() {
    const watch = library.layOut({ inodes: 40, blocks: 900, imageBlocks: enoughImage(40) });
    const content = Uint8Array.from({ length: MAX_FILE }, (_, k) => k * 7 + 1);
    let directory = ROOT;
    for (let k = 0; k < 39; k++) {
        const name = `${String.fromCharCode(65 + (k % 26))}${k}`;
        if (k % 9 === 0) directory = watch.createDirectory(directory, name);
        else watch.write(watch.createFile(directory, name), 0, content.subarray(0, (k * 317) % (MAX_FILE + 1)));
    }
    watch.unlink(2, 'C2');
    watch.start();
    while (watch.status().state === 'running') watch.burst(64);
    return watch;
}

/** How many blocks a file or directory takes; a long file has one more, for addresses. */
const blocksOf = (size) => Math.ceil(size / 64) + (size > 768 ? 1 : 0);

test('entries are those that look up finds, and bytes those that read gives', () => {
    const watch = filled();
    for (const [files, blocks] of [[watch.files(), 900], [watch.copy(), enoughImage(40)]]) {
        assert.equal(files.inodes, 40);
        assert.equal(files.blocks, blocks);
        assert.equal(files.freeInodes, 1);
        const entries = [...files.all()];
        assert.equal(entries.length, 38);
        // the root has one block, and no entry of its own
        assert.equal(files.freeBlocks, entries.reduce((left, { size }) => left - blocksOf(size), blocks - 1));
        assert.deepEqual(
            files.entries(2).map(({ slot, text }) => [slot, text]),
            [[0, 'B1'], [2, 'D3'], [3, 'E4'], [4, 'F5'], [5, 'G6'], [6, 'H7'], [7, 'I8'], [8, 'J9']],
        );
        for (const { directory, name, text, inode, kind, links, size } of entries) {
            assert.equal(watch.lookUp(directory, name), inode);
            assert.equal(files.find(directory, text.toLowerCase()).inode, inode);
            assert.equal(links, 1);
            assert.equal(files.kind(inode), kind);
            if (kind === 'directory') continue;
            assert.equal(files.contents(inode).length, size);
            for (let offset = 0; offset <= size; offset += 1 + (offset % 50)) {
                const length = (offset * 13) % 3000;
                assert.deepEqual(files.read(inode, offset, length), watch.read(inode, offset, length));
            }
            assert.equal(refusal(() => files.read(inode, size + 1)), 'PastEnd');
        }
        assert.equal(refusal(() => files.contents(ROOT)), 'WrongInode');
        assert.equal(refusal(() => files.entries(3)), 'WrongInode');
        for (const none of [0, 41, 2n ** 64n - 1n]) {
            assert.equal(files.kind(none), null);
            assert.equal(refusal(() => files.contents(none)), 'WrongInode');
        }
        assert.equal(files.find(ROOT, 'absent'), undefined);
        assert.equal(files.find(3, 'absent'), undefined);
    }
    watch.free();
});

test('an image that is cut or changed is none', () => {
    const watch = filled();
    const image = watch.image();
    assert.notEqual(library.filesOfImage(image), null);
    assert.equal(library.filesOfImage(image.subarray(1)), null);
    assert.equal(library.filesOfImage(new Uint8Array(0)), null);
    for (let at = 0; at < 16; at++) {
        const wrong = image.slice();
        wrong[at] ^= 1;
        assert.equal(library.filesOfImage(wrong), null, `byte ${at}`);
    }
    watch.free();
});

test('bytes are copied, whatever kind of Uint8Array holds them', () => {
    const watch = library.layOut({ inodes: 4, blocks: 4, imageBlocks: 4 });
    const f = watch.createFile(ROOT, 'name');
    watch.write(f, 0, 'abc');
    watch.start();
    while (watch.status().state === 'running') watch.burst(64);
    const text = (bytes) => new TextDecoder().decode(bytes);
    const kinds = {
        plain: (bytes) => bytes.slice(),
        Buffer: (bytes) => Buffer.from(bytes), // whose slice is a view
        subarray: (bytes) => new Uint8Array([...bytes, 0]).subarray(0, bytes.length),
        shared: (bytes) => {
            const all = new Uint8Array(new SharedArrayBuffer(bytes.length));
            all.set(bytes);
            return all;
        },
    };
    for (const [kind, make] of Object.entries(kinds))
        for (const [of, bytes] of [['filesOfStore', watch.store()], ['filesOfImage', watch.image()]]) {
            const given = make(bytes);
            const files = library[of](given);
            const handedOut = [files.entries(ROOT)[0].name, files.find(ROOT, 'name').name, files.contents(f), files.read(f, 1)];
            for (const out of handedOut) {
                assert.equal(out.constructor, Uint8Array, kind);
                out.fill(0x7a);
            }
            assert.deepEqual(new Uint8Array(given), bytes, `${kind}: what was handed out is the caller's`);
            given.fill(9);
            assert.equal(files.inodes, 4, kind);
            assert.equal(text(files.entries(ROOT)[0].name), 'name', kind);
            assert.equal(text(files.contents(f)), 'abc', kind);
        }
    watch.free();
});

test('what a watch is lent and hands out is a copy', () => {
    const watch = library.layOut({ inodes: 4, blocks: 4, imageBlocks: 4 });
    const [name, content] = [Buffer.from('name'), Buffer.from('abc')];
    const f = watch.createFile(ROOT, name);
    watch.write(f, 0, content);
    watch.start();
    while (watch.status().state === 'running') watch.burst(64);
    const given = { store: Buffer.from(watch.store()), image: Buffer.from(watch.image()), desk: Buffer.from(watch.desk()) };
    const again = library.over(given);
    const before = [watch.store(), watch.image(), watch.desk()];
    for (const bytes of [name, content, ...Object.values(given)]) bytes.fill(9);
    for (const w of [watch, again]) {
        for (const files of [w.files(), w.copy()]) {
            files.entries(ROOT)[0].name.fill(9);
            files.contents(f).fill(9);
        }
        for (const bytes of [w.store(), w.image(), w.desk(), w.read(f)]) bytes.fill(9);
        assert.deepEqual([w.store(), w.image(), w.desk()], before);
        assert.equal(w.lookUp(ROOT, 'name'), f);
        w.free();
    }
});

test('only the library makes files', () => {
    assert.throws(() => new Files(new Uint8Array(100)), TypeError);
});

test('files are those of their time', () => {
    const watch = library.layOut({ inodes: 4, blocks: 4 });
    const f = watch.createFile(ROOT, 'f');
    watch.write(f, 0, 'abc');
    const files = watch.files();
    watch.write(f, 0, 'xyz');
    assert.equal(new TextDecoder().decode(files.contents(f)), 'abc');
    watch.free();
    assert.equal(new TextDecoder().decode(files.contents(f)), 'abc');
});
