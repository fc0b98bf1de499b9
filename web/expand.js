// Writes the raw image that a sparse image stands for, or a part of a file, to where the user wants it.
import { FILL, RAW } from "./module.js";
import { walk } from "./sparse.js";

/** Raw bytes from here on are handed over as a part of the file, and not as a copy. */
const LARGE = 64 << 10;

/** About how much is written at once: each call to write takes the browser some milliseconds. */
const BATCH = 64 << 20;

/** Gaps up to this are filled up with zeros, so that what stands around them is written at once. */
const SMALL_GAP = 1 << 20;

/** So many bytes of one word are made at once; more of them are the same bytes named again, up to 16 times or so. */
const [FEW, MOST] = [64 << 10, 1 << 20];

/** Bytes that stand over and over, each time at no cost of memory. */
class Repeated {
  constructor(bytes) {
    this.size = bytes.length;
    this.blob = new Blob([bytes]);
  }

  /** So many bytes of it, as parts of a blob. */
  parts(length) {
    const parts = Array(Math.floor(length / this.size)).fill(this.blob);
    if (length % this.size > 0) parts.push(this.blob.slice(0, length % this.size));
    return parts;
  }
}

const ZEROS = new Repeated(new Uint8Array(FEW));

/** Takes an image's parts in their order and writes them in batches. What it is never given is zeros. */
class Batches {
  constructor(sink) {
    this.sink = sink;
    this.parts = [];
    this.at = 0;
    this.count = 0;
  }

  async #flush() {
    if (this.count === 0) return;
    const blob = new Blob(this.parts);
    this.parts = [];
    this.count = 0;
    await this.sink.write(this.at, blob);
  }

  /** Puts parts at a position, as many bytes as `length` says: a promise where what is held has to be written first. */
  put(position, length, parts) {
    const gap = position - this.at - this.count;
    if (this.count > 0 && (gap > SMALL_GAP || this.count + gap + length > BATCH)) {
      return this.#flush().then(() => this.#add(position, 0, length, parts));
    }
    return this.#add(position, this.count > 0 ? gap : 0, length, parts);
  }

  #add(position, gap, length, parts) {
    if (this.count === 0) this.at = position;
    if (gap > 0) this.parts.push(...ZEROS.parts(gap));
    this.parts.push(...parts);
    this.count += gap + length;
  }

  end() {
    return this.#flush();
  }
}

/** A file that the user picked. What it held before stands until the end is reached. */
export class FileSink {
  done = "Written:";

  static async open(handle, size) {
    const stream = await handle.createWritable();
    await stream.truncate(size);
    return new FileSink(handle.name, stream);
  }

  constructor(name, stream) {
    this.name = name;
    this.stream = stream;
  }

  write(position, data) {
    return this.stream.write({ type: "write", position, data });
  }

  end() {
    return this.stream.close();
  }

  /** Nothing of what was written stays. */
  abort() {
    return this.stream.abort();
  }
}

/** A download, for browsers that let no page write to a file: parts of the file, copies and zeros in one blob. */
export class DownloadSink {
  static zeros = new Repeated(new Uint8Array(MOST));
  done = "Handed over as a download:";

  constructor(name, size) {
    this.name = name;
    this.size = size;
    this.parts = [];
    this.at = 0;
  }

  #zeros(end) {
    this.parts = this.parts.concat(DownloadSink.zeros.parts(end - this.at));
    this.at = end;
  }

  async write(position, data) {
    this.#zeros(position);
    this.parts.push(data);
    this.at += data.size;
  }

  async end() {
    this.#zeros(this.size);
    const link = document.createElement("a");
    link.href = URL.createObjectURL(new Blob(this.parts, { type: "application/octet-stream" }));
    link.download = this.name;
    link.click();
    setTimeout(() => URL.revokeObjectURL(link.href), 600_000);
  }

  async abort() {
    this.parts = [];
  }
}

/** Where something of this name and size goes: a file that the user picks, or a download. Null: the user picks none. */
export async function pickSink(name, size) {
  if (!window.showSaveFilePicker) return new DownloadSink(name, size);
  try {
    return await FileSink.open(await window.showSaveFilePicker({ suggestedName: name }), size);
  } catch (error) {
    if (error.name === "AbortError") return null;
    throw error;
  }
}

/** Writes the raw image to a sink. Answers the last part; where that is a fault, or it throws, nothing is kept. */
export async function expand(file, module, sink, progress, signal) {
  const batches = new Batches(sink);
  const step = (part, place, bytes) => {
    progress(part.position);
    if (part.kind === RAW) {
      const raw = part.length < LARGE ? bytes.slice() : file.slice(place, place + part.length);
      return batches.put(part.position, part.length, [raw]);
    }
    if (part.kind === FILL) return repeat(batches, part.position, part.length, module.word(), signal);
    return undefined;
  };
  try {
    const end = await walk(file, module, step, null, signal);
    if (end.fault) {
      await sink.abort();
      return end;
    }
    await batches.end();
    signal?.throwIfAborted();
    await sink.end();
    return end;
  } catch (error) {
    await sink.abort().catch(() => {});
    throw error;
  }
}

/** A word over and over. Zeros stand there already. */
async function repeat(batches, position, length, word, signal) {
  if (word.every((byte) => byte === 0)) return;
  const size = Math.min(length, Math.max(FEW, Math.min(MOST, length / 16 & ~3)));
  const words = new Repeated(new Uint8Array(size).map((_, i) => word[i % 4]));
  for (let done = 0; done < length; done += BATCH) {
    signal?.throwIfAborted();
    const some = Math.min(length - done, BATCH);
    await batches.put(position + done, some, words.parts(some));
  }
}

/** Writes a part of a file to a sink. */
export async function save(file, at, size, sink) {
  try {
    await sink.write(0, file.slice(at, at + size));
    await sink.end();
  } catch (error) {
    await sink.abort().catch(() => {});
    throw error;
  }
}
