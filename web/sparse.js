// A sparse image in a file of any size: its chunks, and its parts in their order. What the bytes mean is told by the
// module; here it is only said which bytes of the file it is lent.
import { CHECKSUM, END, FAULT, FILL, NEED, NOTHING, RAW, WINDOW } from "./module.js";

/** Raw bytes of more than this are passed over, and not read. */
const LONG = 128 << 10;

/** How much is read at first, where it isn't known how much is wanted. */
const FIRST = 16 << 10;

/**
 * Goes through a sparse image. `step` is called with each part, the place in the file where its bytes begin, and of a
 * raw part these bytes, or null where they were passed over; a promise that it answers is waited for. Behind a header
 * or a word it also gets the chunk. `loaded` is called with how much of the file was read. Answers the last part, the end
 * or the fault, with the place in the file where that begins, and whether it cuts a chunk off.
 */
export async function walk(file, module, step, loaded, signal) {
  let at = 0; // how much of the file was used
  let from = 0; // where in the window that is
  let have = 0; // how much of the window is filled
  let size = FIRST;
  let begun = 0; // where in the file what is read next begins
  module.begin();
  for (;;) {
    const part = module.next(from, have - from);
    const isRaw = part.kind === RAW;
    const bytes = isRaw ? lent(module, from + part.offset, part.length) : null;
    const place = isRaw ? at + part.offset : begun;
    at += part.used;
    from += part.used;
    if (part.kind === NEED) {
      signal?.throwIfAborted();
      loaded?.(at);
      if (at >= file.size) return { cuts: isCut(module.chunk()), ...module.last(), place: begun };
      have = await load(file, module, at, size);
      from = 0;
      size = Math.min(2 * size, WINDOW);
      continue;
    }
    if (part.kind === END || part.kind === FAULT) return { ...part, place: begun };
    begun = at;
    const chunk = part.kind === NOTHING ? module.chunk() : null;
    const wait = step(part, place, bytes, chunk);
    if (wait) await wait;
    if (!chunk || chunk.kind !== RAW || chunk.left <= have - from + LONG) continue;
    at = await passOver(module, at, Math.min(at + chunk.extra + chunk.left, file.size), step, signal);
    begun = at;
    from = have = 0;
    size = FIRST;
  }
}

/** Whether something of a chunk is still to come. */
function isCut(chunk) {
  return chunk.due || chunk.extra > 0 || chunk.left > 0;
}

function lent(module, from, length) {
  const start = module.window + from;
  return module.bytes.subarray(start, start + length);
}

async function load(file, module, at, size) {
  const got = new Uint8Array(await file.slice(at, at + size).arrayBuffer());
  module.bytes.set(got, module.window);
  return got.length;
}

/**
 * Raw bytes from `at` to `end`, without a look at them: the module tells how many they are, whatever they are, so it is
 * lent the window as it stands.
 */
async function passOver(module, at, end, step, signal) {
  while (at < end) {
    signal?.throwIfAborted();
    const part = module.next(0, Math.min(WINDOW, end - at));
    if (part.kind === RAW) {
      const wait = step(part, at, null, null);
      if (wait) await wait;
    }
    at += part.used;
  }
  return at;
}

/** The chunks of an image, in columns that grow. */
export class Chunks {
  count = 0;
  kinds = new Uint8Array(1024);
  /** The block behind each chunk. */
  ends = new Uint32Array(1024);
  /** The word of a fill or a checksum. */
  words = new Uint32Array(1024);
  /** Where in the file its header begins. */
  places = new Float64Array(1024);

  add(kind, end, word, place) {
    if (this.count === this.kinds.length) {
      for (const name of ["kinds", "ends", "words", "places"]) {
        const longer = new this[name].constructor(2 * this.count);
        longer.set(this[name]);
        this[name] = longer;
      }
    }
    this.kinds[this.count] = kind;
    this.ends[this.count] = end;
    this.words[this.count] = word;
    this.places[this.count] = place;
    this.count += 1;
  }

  /** The first block of chunk i. */
  start(i) {
    return i === 0 ? 0 : this.ends[i - 1];
  }

  /** How many blocks chunk i has. */
  blocks(i) {
    return this.ends[i] - this.start(i);
  }

  /** The chunk that has this block. */
  of(block) {
    let low = 0;
    let high = this.count;
    while (low < high) {
      const middle = (low + high) >>> 1;
      if (this.ends[middle] > block) high = middle;
      else low = middle + 1;
    }
    return low;
  }
}

/** What a sparse image has: its header, its chunks, and how it ended. */
export async function list(file, module, progress, signal) {
  const chunks = new Chunks();
  let header = null;
  const step = (part, place, bytes, chunk) => {
    if (!chunk) return;
    header ??= module.header();
    if (chunk.headers > chunks.count) chunks.add(chunk.kind, chunk.blocks, 0, place);
    if (!chunk.due && (chunk.kind === FILL || chunk.kind === CHECKSUM)) chunks.words[chunks.count - 1] = chunk.word;
  };
  const end = await walk(file, module, step, progress, signal);
  if (end.fault && end.cuts) chunks.count -= 1;
  return { header, chunks, end };
}
