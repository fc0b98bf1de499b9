// Numbers, bytes and refusals as people read them.
const UNITS = ["bytes", "KiB", "MiB", "GiB", "TiB", "PiB"];

/** The names of chunks and of parts of the picture, by the module's numbers. */
export const KINDS = { 1: "raw", 2: "fill", 3: "skip", 7: "crc32" };

/** A whole number, in groups of three digits. */
export function grouped(n) {
  return n.toLocaleString("en-US");
}

/** A size: "1.5 GiB (1,610,612,736 bytes)". */
export function sizeText(bytes) {
  const exact = `${grouped(bytes)} ${bytes === 1 ? "byte" : "bytes"}`;
  return bytes < 1024 ? exact : `${shortSize(bytes)} (${exact})`;
}

/** A size in short: "1.5 GiB". */
export function shortSize(bytes) {
  let unit = 0;
  let size = bytes;
  while (size >= 1024 && unit < UNITS.length - 1) {
    size /= 1024;
    unit += 1;
  }
  const digits = unit === 0 || size >= 100 || Number.isInteger(size) ? 0 : 1;
  return `${size.toFixed(digits)} ${UNITS[unit]}`;
}

/** Eight hexadecimal digits of a number, most significant first. */
export function hexWord(n) {
  return n.toString(16).padStart(8, "0");
}

export function hexBytes(bytes) {
  return Array.from(bytes, (byte) => byte.toString(16).padStart(2, "0")).join("");
}

/** A text up to its first zero byte, with all that isn't printable ASCII as \x and two digits. */
export function escaped(bytes) {
  const zero = bytes.indexOf(0);
  return Array.from(zero < 0 ? bytes : bytes.subarray(0, zero), (byte) => {
    const isPlain = byte >= 0x20 && byte < 0x7f && byte !== 0x22 && byte !== 0x5c;
    return isPlain ? String.fromCharCode(byte) : `\\x${byte.toString(16).padStart(2, "0")}`;
  }).join("");
}

/** The fields of a boot header as `abootimg info` prints them. */
export function fieldText(name, value) {
  if (name === "os") {
    const [a, b, c, year, month] = value;
    return `${a}.${b}.${c} ${String(year).padStart(4, "0")}-${String(month).padStart(2, "0")}`;
  }
  if (name === "id") return hexBytes(value);
  if (value instanceof Uint8Array) return escaped(value);
  return value.toString();
}

/**
 * What a refusal says, from the rows of docs/COMMANDS.md: the line that `abootimg` prints, why, and what to do. `rows`
 * has them by their numbers; in them I, N and S stand for a number or a section.
 */
export function refusal(rows, fault, detail, section) {
  const isChunkType = fault === 6;
  const values = {
    I: isChunkType ? detail & 0xffff_ffffn : detail,
    N: isChunkType ? detail >> 32n : detail,
    S: section,
  };
  const row = rows[fault];
  return Object.fromEntries(Object.entries(row).map(([name, text]) => [
    name, text.replace(/\b[INS]\b/g, (letter) => String(values[letter])),
  ]));
}
