import assert from 'node:assert/strict';
import { test } from 'node:test';
import v8 from 'node:v8';
import vm from 'node:vm';
import { ROOT } from '../honecerise.js';
import { Heap } from '../heap.js';
import { bytes, fresh } from './library.js';

test('watches live on when the memory grows', async () => {
    const library = await fresh();
    const first = library.layOut({ inodes: 16, blocks: 64 });
    const f = first.createFile(ROOT, 'first');
    first.write(f, 0, 'abc');
    const store = first.store();
    const files = first.files();
    // 300 KB each: the memory grows many times
    const others = Array.from({ length: 40 }, () => library.layOut({ inodes: 256, blocks: 1024, imageBlocks: 3000 }));
    others.forEach((watch, k) => watch.createFile(ROOT, `run ${k}`));
    assert.deepEqual(first.store(), store);
    assert.deepEqual(files.contents(f), new TextEncoder().encode('abc'));
    assert.equal(first.write(f, 3, 'def'), 6);
    others.forEach((watch, k) => assert.equal(watch.lookUp(ROOT, `run ${k}`), 2));
    for (const watch of others) watch.free();
    first.free();
    assert.equal(library.used, 0);
});

test('what is freed is used again', async () => {
    const memory = new WebAssembly.Memory({ initial: 1 });
    const heap = new Heap(memory, 100);
    const random = (() => {
        let x = 1;
        return (n) => (x = (Math.imul(x, 1103515245) + 12345) >>> 0) % n;
    })();
    const held = [];
    for (let k = 0; k < 2000; k++) {
        if (held.length < 8 || random(2) === 0) {
            const length = random(40000);
            const at = heap.take(length);
            const mark = 1 + random(255);
            assert.ok(heap.bytes(at, length).every((byte) => byte === 0));
            assert.equal(at % 8, 0);
            heap.bytes(at, length).fill(mark);
            held.push({ at, length, mark });
        }
        if (held.length > 24 || (held.length > 0 && random(2) === 0)) {
            const [{ at, length, mark }] = held.splice(random(held.length), 1);
            // no other piece wrote over it
            assert.ok(heap.bytes(at, length).every((byte) => byte === mark));
            heap.give(at);
            heap.give(at); // twice does nothing
        }
    }
    for (const { at } of held) heap.give(at);
    assert.equal(heap.used, 0);
    assert.ok(memory.buffer.byteLength < 4 << 20, `grew to ${memory.buffer.byteLength}`);
    assert.equal(heap.take(memory.buffer.byteLength - 104), 104); // all is one piece again
});

test('ten thousand watches, one after the other, in the same memory', async () => {
    const library = await fresh();
    for (let k = 0; k < 10000; k++) {
        const watch = library.layOut({ inodes: 16, blocks: 64, imageBlocks: 64 });
        watch.createFile(ROOT, 'run');
        watch.free();
        watch.free();
    }
    assert.equal(library.used, 0);
});

test('a freed watch is none', async () => {
    const library = await fresh();
    const watch = library.layOut({ inodes: 1, blocks: 1 });
    watch.free();
    for (const call of ['store', 'status', 'step', 'files'])
        assert.throws(() => watch[call](), /freed/);
    assert.throws(() => watch.createFile(ROOT, 'a'), /freed/);
    assert.throws(() => watch.read(2), /freed/);
    assert.equal(library.used, 0);
});

test('a refused or thrown call leaves no memory behind', async () => {
    const library = await fresh();
    const watch = library.layOut({ inodes: 2, blocks: 2 });
    const before = library.used;
    for (const call of [() => watch.createFile(ROOT, 'a/b'), () => watch.read(9), () => watch.lookUp(ROOT, 'x'),
        () => watch.rename(ROOT, 'x', ROOT, 5), () => watch.renameNew(ROOT, 'x', ROOT, 'y'),
        () => library.matchLaps([2, 1], []), () => library.matchLaps([1], [-1]),
        () => library.keep([{ year: 1999, month: 1, day: 1 }], [], { year: 2024, month: 1, day: 1 }),
        () => library.deal([], 1, 0)])
        assert.throws(call);
    assert.equal(library.used, before);
});

test('memory comes from a module, from bytes, and from a response', async () => {
    const { load } = await import('../honecerise.js');
    const module = new WebAssembly.Module(bytes);
    const response = new Response(bytes, { headers: { 'content-type': 'application/wasm' } });
    for (const source of [module, bytes, response, Promise.resolve(bytes)]) {
        const library = await load(source);
        const watch = library.layOut({ inodes: 2, blocks: 2 });
        assert.equal(watch.createFile(ROOT, 'a'), 2);
    }
    await assert.rejects(load(new Response('', { status: 404 })), /404/);
});

test('a watch that nothing holds gives its memory back', async () => {
    v8.setFlagsFromString('--expose-gc');
    const collect = vm.runInNewContext('gc');
    const library = await fresh();
    (() => void library.layOut({ inodes: 16, blocks: 64 }).createFile(ROOT, 'run'))();
    assert.ok(library.used > 0);
    for (let k = 0; k < 20 && library.used > 0; k++) {
        await new Promise((done) => setTimeout(done, 5));
        collect();
    }
    assert.equal(library.used, 0);
});
