import { readFile } from 'node:fs/promises';
import { ROOT, Refusal, enoughImage, load } from '../../bindings/js/honecerise.js';

// in a browser: load(fetch('honecerise.wasm'))
const wasm = new URL('../../target/wasm32/honecerise.wasm', import.meta.url);
const honecerise = await load(readFile(wasm));
const watch = honecerise.layOut({ inodes: 16, blocks: 64, imageBlocks: enoughImage(16) });
const run = watch.createFile(ROOT, 'run1');
watch.write(run, 0, '71.2 70.8');
watch.start();
while (watch.status().state === 'running') watch.burst(64);
for (const entry of watch.copy().all()) console.log(entry.text, entry.size);

try {
    watch.createFile(ROOT, 'Run1');
} catch (error) {
    if (!(error instanceof Refusal)) throw error;
    console.log(`${error.kind}: ${error.message}`);
}

const sent = watch.image();
watch.free(); // its memory; or leave it to the collector
const files = honecerise.filesOfImage(sent); // what came over the air: null unless it is sound
console.log(new TextDecoder().decode(files.contents(run)));
