// A boot image or a vendor boot image in a file: its header, its sections and the fragments of its ramdisk.
import { WINDOW } from "./module.js";

/** So many bytes are enough for any header. */
const HEAD = 4096;

/** The names of sections, by their numbers in include/abootimg.h. */
const SECTIONS = [
  "", "kernel", "ramdisk", "second", "recovery_dtbo", "dtb", "signature", "vendor_ramdisk", "table", "bootconfig",
];
const [VENDOR_RAMDISK, TABLE] = [7, 8];

/** What a boot image has; where it is refused, `fault` and `detail`, and where in the file what is refused begins. */
export async function open(file, module) {
  const head = new Uint8Array(await file.slice(0, HEAD).arrayBuffer());
  module.bytes.set(head, module.window);
  const boot = module.boot(head.length);
  if (boot.fault) return { ...boot, place: 0 };
  for (const section of boot.sections) section.name = SECTIONS[section.kind];
  Object.assign(boot, module.fields(head.length));
  const cut = boot.sections.find((it) => it.size > 0 && it.at + it.size > file.size);
  if (cut) return { ...boot, fault: 29, section: cut.name, place: cut.at };
  return { ...boot, ...await fragments(file, module, boot) };
}

/** The fragments of a vendor ramdisk, up to one that does not lie in it. */
async function fragments(file, module, boot) {
  const found = [];
  const table = boot.sections.find((it) => it.kind === TABLE);
  const ramdisk = boot.sections.find((it) => it.kind === VENDOR_RAMDISK);
  for (let at = 0, have = 0, from = 0; found.length < boot.fragments; from += found.at(-1).used) {
    let entry = module.fragment(from, have - from);
    if (!entry) {
      at += from;
      from = 0;
      have = await loadEntries(file, module, table, at);
      entry = module.fragment(0, have);
    }
    if (entry.at + entry.size > ramdisk.size) {
      return { fault: 24, detail: BigInt(found.length), place: table.at + at + from, found };
    }
    found.push({ ...entry, at: ramdisk.at + entry.at, inside: entry.at });
  }
  return { found };
}

async function loadEntries(file, module, table, at) {
  const end = Math.min(at + WINDOW, table.size);
  const bytes = new Uint8Array(await file.slice(table.at + at, table.at + end).arrayBuffer());
  module.bytes.set(bytes, module.window);
  return bytes.length;
}
