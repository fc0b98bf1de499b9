// Expands a sparse image through the WebAssembly module: node expand.mjs abootimg.wasm IMAGE OUT
// (Node 24; Node 20 and 22 with --experimental-wasm-memory64. In a page fetch the module in place of reading it.)
import { closeSync, ftruncateSync, openSync, readFileSync, readSync, writeSync } from "node:fs";

const [wasm, image, out] = process.argv.slice(2);
const library = new WebAssembly.Instance(new WebAssembly.Module(readFileSync(wasm)), {}).exports;
// The memory is the caller's, from __heap_base on: here abt_sparse (120 bytes), abt_part (56), and the input.
const state = library.__heap_base.value, part = state + 128n, input = part + 64n, most = 1 << 20;
const pages = Math.ceil((Number(input) + most - library.memory.buffer.byteLength) / 65536);
if (pages > 0) try { library.memory.grow(BigInt(pages)); } catch { library.memory.grow(pages); }
const bytes = new Uint8Array(library.memory.buffer, Number(input), most);
// abt_part, little-endian: u64 position at 0, length 8, used 16, offset 24, detail 32; u32 kind 40, fault 44; word 48.
const view = new DataView(library.memory.buffer, Number(part), 56);
const long = (at) => Number(view.getBigUint64(at, true));
const [from, to] = [openSync(image), openSync(out, "w")];

function write(data, position) {
  for (let done = 0; done < data.length;) done += writeSync(to, data, done, data.length - done, position + done);
}

function repeat(word, length, position) {
  const many = Buffer.alloc(Math.min(length, most), word);
  for (let done = 0; done < length; done += many.length) write(many.subarray(0, length - done), position + done);
}

library.abt_sparse_init(state);
for (let at = 0, have = 0, size = 0; ;) {
  let fault = library.abt_sparse_next(state, input + BigInt(at), BigInt(have - at), part);
  const [kind, position, length, raw] = [view.getUint32(40, true), long(0), long(8), at + long(24)];
  at += long(16);
  if (kind === 1) write(bytes.subarray(raw, raw + length), position); // ABT_RAW: a part of the input
  if (kind === 2) repeat(new Uint8Array(view.buffer, view.byteOffset + 48, 4), length, position); // ABT_FILL
  size = Math.max(size, position + length); // ABT_SKIP (3) writes nothing; ABT_NOTHING (4) is a header
  if (kind === 5) { ftruncateSync(to, size); break; } // ABT_END
  if (kind === 0) [at, have] = [0, readSync(from, bytes, 0, most, null)]; // ABT_NEED
  if (kind === 0 && have === 0) fault = library.abt_sparse_last(state, part); // the file has ended
  if (fault !== 0) { console.error(`refused: ${fault} (${view.getBigUint64(32, true)})`); process.exit(1); }
}
closeSync(to);
