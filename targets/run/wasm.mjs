// node wasm.mjs LIBRARY PROGRAM: runs a test program that is compiled to WebAssembly beside honecerise.wasm, in the library's
// memory: the calls go from module to module. Input and output are those of node.
import { readFileSync, writeSync } from 'node:fs';

const [library, program] = process.argv.slice(2).map((path) => new WebAssembly.Module(readFileSync(path)));
const honecerise = new WebAssembly.Instance(library).exports;
const { memory } = honecerise;
const bytes = () => new Uint8Array(memory.buffer); // anew each time: it is another one when the memory grows
const PAINT = 0xa5;
const low = honecerise.__stack_low.value;
const high = honecerise.__stack_high.value;

let input;
let at = 0;
const port = {
    port_read(into, room) {
        input ??= readFileSync(0);
        const piece = input.subarray(at, at + room);
        bytes().set(piece, into);
        at += piece.length;
        return piece.length;
    },
    port_write(from, count) {
        const piece = bytes().slice(from, from + count);
        for (let done = 0; done < count; ) done += writeSync(1, piece, done);
    },
    port_paint() {
        bytes().fill(PAINT, low, high);
    },
    port_painted() {
        return high - (low + bytes().subarray(low, high).findIndex((byte) => byte !== PAINT));
    },
};

memory.grow(64); // the program's data begins at 1 MB
const instance = new WebAssembly.Instance(program, { env: { ...honecerise, ...port } });
process.exitCode = instance.exports.main();
