// node deep.mjs LIBRARY: what honecerise.wasm does where its stack is too short. In a copy of the module whose stack begins 1 KB
// from the front of the memory a check of a store, which takes more, must trap, and change nothing behind its stack.
import { readFileSync } from 'node:fs';

const SHORT = 1024;
const INODES = 4;
const BLOCKS = 8;
const LENGTH = 16 + 32 * INODES + 64 * BLOCKS;

const fail = (why) => {
    console.log(why);
    process.exit(1);
};
const instance = (bytes) => new WebAssembly.Instance(new WebAssembly.Module(bytes)).exports;
const everything = ({ memory }) => Buffer.from(memory.buffer);

// A number that may change, an i32 that begins with n: the stack pointer, in the three bytes that 8,192 takes.
const variable = (n) => Buffer.from([0x7f, 1, 0x41, 0x80 | (n & 127), 0x80 | ((n >> 7) & 127), (n >> 14) & 127, 0x0b]);

const module = readFileSync(process.argv[2]);
const whole = instance(module);
const at = module.indexOf(variable(whole.__stack_high.value));
if (at < 0) fail('the module has no stack pointer that begins with __stack_high');
const cut = instance(Buffer.concat([module.subarray(0, at), variable(SHORT), module.subarray(at + 7)]));

const store = whole.__heap_base.value;
if (whole.honecerise_lay_out_store(store, BigInt(LENGTH), BigInt(INODES), BigInt(BLOCKS)) < 0) fail('no store');
if (whole.honecerise_check(0, store, BigInt(LENGTH)) !== 1) fail('the store is not sound');

everything(whole).copy(everything(cut), store, store, store + LENGTH);
const before = Buffer.from(everything(cut).subarray(SHORT));
try {
    cut.honecerise_check(0, store, BigInt(LENGTH));
    fail('a stack that is too deep does not trap');
} catch (error) {
    if (!(error instanceof WebAssembly.RuntimeError)) throw error;
}
if (!before.equals(everything(cut).subarray(SHORT))) fail('a stack that is too deep writes over other memory');
console.log('a stack that is too deep traps, and writes over nothing');
