// The WebAssembly module: the calls of include/abootimg.h, and how their structs lie in its memory.
//
// The module takes no memory and keeps nothing, so the page lays everything itself, from the module's `__heap_base` on:
// the structs first, and then a window of WINDOW bytes into which a part of the file is put. Pointers and lengths are
// of 64 bits, which JavaScript hands over as BigInt.

/** What a part of a sparse image is, and of a chunk its kind. */
export const NEED = 0, RAW = 1, FILL = 2, SKIP = 3, NOTHING = 4, END = 5, FAULT = 6, CHECKSUM = 7;

/** How many bytes of a file are in memory at once. */
export const WINDOW = 4 << 20;

const VERSION = { boot: 1, vendor: 2 };
const PAGE = 65536;

/** How many bytes each struct has, rounded up to 16. */
const SIZES = {
  state: 128, part: 64, size: 32, header: 32, chunk: 32, boot: 112, fields: 3200, fragment: 112,
};

/** What a field of `abt_fields` is called, by its bit in `has`. */
const FIELDS = ["kernel", "ramdisk", "second", "tags", "dtb", "os", "name", "cmdline", "extra", "id"];

/** A compiled module with a memory of its own, so that two can be at work on two files. */
export class Module {
  constructor(compiled) {
    this.calls = new WebAssembly.Instance(compiled, {}).exports;
    this.at = {};
    let place = Number(this.calls.__heap_base.value);
    place += (16 - place % 16) % 16;
    for (const [name, size] of Object.entries(SIZES)) {
      this.at[name] = place;
      place += size;
    }
    this.window = place;
    this.#grow(place + WINDOW);
    this.bytes = new Uint8Array(this.calls.memory.buffer);
    this.view = new DataView(this.calls.memory.buffer);
    this.numbers = new Uint32Array(this.calls.memory.buffer);
    this.pointers = Object.fromEntries(Object.entries(this.at).map(([name, at]) => [name, BigInt(at)]));
    this.part = { kind: NEED, position: 0, length: 0, used: 0, offset: 0, fault: 0, detail: 0n };
    this.told = { left: 0, headers: 0, blocks: 0, kind: 0, due: false, extra: 0, word: 0 };
  }

  #grow(size) {
    const { memory } = this.calls;
    const more = Math.ceil((size - memory.buffer.byteLength) / PAGE);
    if (more <= 0) return;
    try {
      memory.grow(BigInt(more));
    } catch {
      memory.grow(more); // as older versions of the standard had it
    }
  }

  /** Sets the state of the reader to the one before the first byte. */
  begin() {
    this.calls.abt_sparse_init(this.pointers.state);
  }

  /**
   * The next part of a sparse image, where `length` bytes of the window from `from` on are what comes next. The answer
   * is one object, which the next call changes.
   */
  next(from, length) {
    this.calls.abt_sparse_next(this.pointers.state, BigInt(this.window + from), BigInt(length), this.pointers.part);
    return this.#told();
  }

  /** The last part, where the file has ended. */
  last() {
    this.calls.abt_sparse_last(this.pointers.state, this.pointers.part);
    return this.#told();
  }

  #told() {
    const { numbers, part } = this;
    const at = this.at.part / 4;
    part.position = this.#long(at);
    part.length = this.#long(at + 2);
    part.used = this.#long(at + 4);
    part.offset = this.#long(at + 6);
    part.kind = numbers[at + 10];
    part.fault = numbers[at + 11];
    if (part.fault) part.detail = this.view.getBigUint64(this.at.part + 32, true);
    return part;
  }

  /** A number of 64 bits, which is below 2^53 wherever a file can reach. */
  #long(at) {
    return this.numbers[at] + this.numbers[at + 1] * 0x1_0000_0000;
  }

  /** The four bytes of the fill that the last part is. */
  word() {
    return this.bytes.slice(this.at.part + 48, this.at.part + 52);
  }

  /** What the header of the sparse image says, once its 28 bytes are read. */
  header() {
    const { view, at } = this;
    this.calls.abt_sparse_size(this.pointers.state, this.pointers.size);
    this.calls.abt_sparse_header(this.pointers.state, this.pointers.header);
    const number = (i) => view.getUint32(at.header + 4 * i, true);
    return {
      bytes: Number(view.getBigUint64(at.size, true)),
      blockSize: view.getUint32(at.size + 8, true),
      blocks: view.getUint32(at.size + 12, true),
      chunks: view.getUint32(at.size + 16, true),
      major: number(0), minor: number(1), size: number(2), chunkSize: number(3), checksum: number(4),
    };
  }

  /**
   * The chunk whose header was read last. Unless it is due, `word` has the four bytes of a fill in their order, the
   * first one most significant, and the number of a checksum, whose last byte is the most significant. The answer is
   * one object, which the next call changes.
   */
  chunk() {
    const { numbers, told } = this;
    const at = this.at.chunk / 4;
    this.calls.abt_sparse_chunk(this.pointers.state, this.pointers.chunk);
    told.left = this.#long(at);
    told.headers = numbers[at + 2];
    told.blocks = numbers[at + 3];
    told.kind = numbers[at + 4];
    told.due = numbers[at + 5] !== 0;
    told.extra = numbers[at + 6];
    told.word = this.view.getUint32(this.at.chunk + 28, told.kind === CHECKSUM);
    return told;
  }

  /** What the header of a boot image says, whose first bytes are the first `length` of the window. */
  boot(length) {
    const { view, at } = this;
    this.calls.abt_boot_info(BigInt(this.window), BigInt(length), this.pointers.boot);
    const number = (i) => view.getUint32(at.boot + 4 * i, true);
    const sections = [];
    for (let i = 0; i < number(6); i += 1) {
      const place = at.boot + 32 + 16 * i;
      sections.push({
        kind: view.getUint32(place, true),
        size: view.getUint32(place + 4, true),
        at: Number(view.getBigUint64(place + 8, true)),
      });
    }
    return {
      fault: number(0), detail: BigInt(number(1)), isVendor: number(2) === VERSION.vendor, version: number(3),
      pageSize: number(4), headerSize: number(5), sections,
    };
  }

  /** The fields of that header: a number, an array of numbers or bytes each, and only those that the version has. */
  fields(length) {
    const { view, bytes } = this;
    const at = this.at.fields;
    this.calls.abt_boot_fields(BigInt(this.window), BigInt(length), this.pointers.fields);
    const number = (i) => view.getUint32(at + 4 * i, true);
    const slice = (from, size) => bytes.slice(at + from, at + from + size);
    const all = {
      kernel: BigInt(number(3)), ramdisk: BigInt(number(4)), second: BigInt(number(5)), tags: BigInt(number(6)),
      dtb: view.getBigUint64(at + 32, true), os: [10, 11, 12, 13, 14].map(number),
      id: slice(64, 32), name: slice(96, 16), cmdline: slice(112, 2048), extra: slice(2160, 1024),
    };
    const has = number(2);
    return {
      fragments: number(7),
      fields: FIELDS.flatMap((name, i) => (has >> i) & 1 ? [{ name, value: all[name] }] : []),
    };
  }

  /** The fragment whose entry stands at `from` of the window, or none where fewer than `length` bytes are one. */
  fragment(from, length) {
    const { view, bytes } = this;
    const at = this.at.fragment;
    const used = Number(
      this.calls.abt_boot_fragment(BigInt(this.window + from), BigInt(length), this.pointers.fragment),
    );
    if (used === 0) return null;
    return {
      used, size: view.getUint32(at, true), at: view.getUint32(at + 4, true), kind: view.getUint32(at + 8, true),
      name: bytes.slice(at + 12, at + 44),
    };
  }
}
