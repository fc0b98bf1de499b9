// The page: takes a file, has it read, and shows what was found.
import { FAULT, FILL, Module } from "./module.js";
import { list } from "./sparse.js";
import { open } from "./boot.js";
import { expand, pickSink, save } from "./expand.js";
import { drawBoxes, drawSparse } from "./picture.js";
import { LongTable } from "./table.js";
import { KINDS, fieldText, grouped, hexWord, refusal, shortSize, sizeText } from "./texts.js";

const MAGIC = 1, TRUNCATED = 10, BOOT_MAGIC = 20, BOOT_SHORT = 25;
const FRAGMENTS = ["none", "platform", "recovery", "dlkm"];
const FIELD_NAMES = {
  os: "OS version and patch level", name: "Name", cmdline: "Command line", extra: "More of the command line", id: "Id",
};
const get = (id) => document.getElementById(id);
const refusals = JSON.parse(get("refusals").textContent);

/** The module, compiled once; each piece of work takes an instance of its own. */
let compiled;
/** What is shown: a function that draws its picture, and one that says what stands at a place of it. */
let shown = null;
/** Stops the work that goes on. */
let working = null;

start();

function start() {
  const bytes = Uint8Array.from(atob(get("module").textContent.trim()), (char) => char.charCodeAt(0));
  get("module-size").textContent = `${grouped(bytes.length)} bytes`;
  try {
    compiled = new WebAssembly.Module(bytes);
    new Module(compiled);
  } catch {
    get("old").hidden = false;
    get("file").disabled = true;
    return;
  }
  get("file").onchange = () => look(get("file").files[0]);
  get("stop").onclick = () => working?.abort();
  takeDrops(get("drop"));
  watchPicture(get("picture"));
  new ResizeObserver(() => shown?.draw()).observe(get("figure"));
  matchMedia("(prefers-color-scheme: dark)").addEventListener("change", () => shown?.draw());
}

function takeDrops(drop) {
  const over = (isOver) => (event) => {
    event.preventDefault();
    drop.classList.toggle("over", isOver);
  };
  addEventListener("dragover", over(true));
  addEventListener("dragleave", over(false));
  addEventListener("drop", (event) => {
    over(false)(event);
    look(event.dataTransfer.files[0]);
  });
}

/** Does work that shows its progress and can be stopped. Answers what it answers, or null where it was stopped. */
async function work(doing, total, job) {
  working?.abort();
  const mine = working = new AbortController();
  get("doing").textContent = doing;
  let next = 0;
  const progress = (done) => {
    if (performance.now() < next) return;
    next = performance.now() + 100;
    get("progress").value = total > 0 ? done / total : 0;
  };
  get("progress").value = 0;
  const late = setTimeout(() => { get("work").hidden = false; }, 300);
  try {
    return await job(progress, mine.signal);
  } catch (error) {
    if (mine.signal.aborted) return null;
    throw error;
  } finally {
    clearTimeout(late);
    if (working === mine) {
      get("work").hidden = true;
      working = null;
    }
  }
}

/** Reads a file and shows what it is. */
async function look(file) {
  if (!file) return;
  shown = null;
  get("image").hidden = true;
  get("refusal").hidden = true;
  say(`Reading ${file.name}`);
  try {
    const boot = await open(file, new Module(compiled));
    if (boot.fault !== BOOT_MAGIC && !(boot.fault === BOOT_SHORT && boot.detail === 8n)) {
      showBoot(file, boot);
      return;
    }
    const found = await work("Reading the chunks", file.size, (progress, signal) =>
      list(file, new Module(compiled), progress, signal));
    if (found) showSparse(file, found);
    else say(`Stopped. ${file.name} was not read to its end.`);
  } catch (error) {
    say(`${file.name} can't be read: ${error.message}`);
  }
}

function say(text) {
  get("status").textContent = text;
}

// ---- what is shown of either kind

function showImage(file, facts, title) {
  get("name").textContent = file.name;
  get("facts").replaceChildren(...facts.map(([name, text, isWide]) => {
    const group = document.createElement("div");
    if (isWide) group.className = "wide";
    group.append(make("dt", name), make("dd", text));
    return group;
  }));
  get("parts").replaceChildren();
  get("pointed").textContent = "";
  get("image").hidden = false;
  say(title);
}

function make(name, text, attributes = {}) {
  const made = document.createElement(name);
  made.textContent = text;
  for (const [key, value] of Object.entries(attributes)) made.setAttribute(key, value);
  return made;
}

/** Text of docs/COMMANDS.md, in which code stands between backquotes. */
function marked(text) {
  return text.split("`").map((piece, i) => i % 2 === 1 ? make("code", piece) : piece);
}

function showRefusals(list) {
  get("refusal").hidden = list.length === 0;
  get("refusal").replaceChildren(...list.flatMap(({ fault, detail, section, place }) => {
    const told = refusal(refusals, fault, detail, section);
    const line = document.createElement("p");
    line.append("Refused: ", make("code", told.line, { class: "line" }));
    return [
      line, sentence("Why: ", `${told.why}.`),
      ...place === undefined ? [] : [sentence("Where: ", `at byte ${grouped(place)} of the file.`)],
      sentence("What to do: ", `${told.todo}.`),
    ];
  }));
}

function sentence(label, text) {
  const made = make("p", label, { class: "why" });
  made.append(...marked(text));
  return made;
}

function showLegend(entries) {
  get("legend").replaceChildren(...entries.map(([colour, text]) => {
    const entry = make("span", "");
    const box = make("i", "");
    box.style.background = `var(${colour})`;
    entry.append(box, text);
    return entry;
  }));
}

// ---- sparse images

function showSparse(file, { header, chunks, end }) {
  const facts = [["File", sizeText(file.size)]];
  if (header) {
    facts.push(
      ["Expanded", sizeText(header.bytes)], ["Blocks", grouped(header.blocks)],
      ["Block size", sizeText(header.blockSize)], ["Chunks", grouped(header.chunks)],
      ["Version", `${header.major}.${header.minor}`], ["Header", sizeText(header.size)],
      ["Header of a chunk", sizeText(header.chunkSize)], ["Checksum", hexWord(header.checksum)],
    );
  }
  const isNeither = end.fault === MAGIC;
  showImage(file, facts, isNeither ? "Neither a sparse image nor a boot image" : "Sparse image");
  const refused = [];
  if (end.fault) refused.push({ ...end, place: end.fault === TRUNCATED ? undefined : end.place });
  if (isNeither) refused.push({ fault: BOOT_MAGIC, detail: 0n, place: 0 });
  showRefusals(refused);
  const hasBlocks = header !== null && header.blocks > 0;
  get("figure").hidden = !hasBlocks;
  get("actions").hidden = header === null;
  get("expand").disabled = end.kind === FAULT;
  get("expand").onclick = () => expandTo(file, header.bytes);
  showChunks(header, chunks, hasBlocks);
}

function showChunks(header, chunks, hasBlocks) {
  const isEmpty = chunks.count === 0;
  get("chunks").hidden = get("chunks-title").hidden = isEmpty;
  let table = null;
  let chosen = null;
  const draw = () => {
    if (hasBlocks) drawSparse(get("picture"), chunks, header.blocks, chosen);
  };
  const mark = (i) => {
    chosen = { from: chunks.start(i), to: chunks.ends[i] };
    draw();
  };
  if (!isEmpty) {
    table = new LongTable(
      get("chunks"), ["Chunk", "Kind", "Blocks", "Word", "From block", "At byte"], chunks.count,
      (i) => chunkCells(chunks, i), (i) => { mark(i); point(i); });
  }
  const point = (i, block) => {
    const text = chunkText(header, chunks, i, block);
    get("pointed").textContent = text;
    get("picture").setAttribute("aria-valuetext", text);
  };
  if (!hasBlocks) return;
  showLegend([["--raw", "raw"], ["--fill", "fill"], ["--skip", "skip (don't care)"]]
    .concat(chunks.ends[chunks.count - 1] < header.blocks || isEmpty ? [["--none", "missing"]] : []));
  get("picture").setAttribute("aria-valuemax", header.blocks - 1);
  shown = {
    draw: () => { draw(); table?.resize(); },
    blocks: header.blocks,
    at(block) {
      const i = chunks.of(block);
      if (i < chunks.count) point(i, block);
      else get("pointed").textContent = `block ${grouped(block)}: no chunk has it`;
    },
    choose(block) {
      const i = chunks.of(block);
      if (i < chunks.count) table.choose(i);
      this.at(block);
    },
  };
  draw();
}

function chunkCells(chunks, i) {
  const kind = chunks.kinds[i];
  const word = KINDS[kind] === "crc32" || kind === FILL ? hexWord(chunks.words[i]) : "";
  return [grouped(i), KINDS[kind], grouped(chunks.blocks(i)), word, grouped(chunks.start(i)), grouped(chunks.places[i])];
}

function chunkText(header, chunks, i, block) {
  const blocks = chunks.blocks(i);
  const size = shortSize(blocks * header.blockSize);
  const where = block === undefined ? "" : `block ${grouped(block)}: `;
  const range = blocks === 0 ? "no blocks" : `blocks ${grouped(chunks.start(i))} to ${grouped(chunks.ends[i] - 1)}, ${size}`;
  const word = chunks.kinds[i] === FILL ? ` ${hexWord(chunks.words[i])}` : "";
  return `${where}chunk ${grouped(i)}, ${KINDS[chunks.kinds[i]]}${word}, ${range}`;
}

async function expandTo(file, size) {
  const name = `${file.name.replace(/\.(simg|sparse|img)$/i, "")}.raw.img`;
  await write(name, size, (sink, progress, signal) => expand(file, new Module(compiled), sink, progress, signal));
}

/** Has something written, and tells how it ended. */
async function write(name, size, job) {
  let told = name;
  try {
    const sink = await pickSink(name, size);
    if (!sink) {
      say("No file was chosen, and nothing was written.");
      return;
    }
    told = sink.name;
    const begun = performance.now();
    const end = await work(`Writing ${told}`, size, (progress, signal) => job(sink, progress, signal));
    const took = ((performance.now() - begun) / 1000).toFixed(1);
    if (end === null) say(`Stopped. Broken off: ${told} was not written.`);
    else if (end?.fault) say(`Broken off: ${told} was not written. The image was changed meanwhile; choose it again.`);
    else say(`${sink.done} ${told}: ${sizeText(size)} in ${took} s.`);
  } catch (error) {
    say(`Broken off: ${told} was not written. ${error.message}`);
  }
}

// ---- boot images

function showBoot(file, boot) {
  const kind = boot.isVendor ? "Vendor boot image" : "Boot image";
  const facts = [["File", sizeText(file.size)]];
  if (boot.sections.length > 0) {
    facts.push(
      ["Kind", boot.isVendor ? "vendor" : "boot"], ["Version", String(boot.version)],
      ["Page", sizeText(boot.pageSize)], ["Header", sizeText(boot.headerSize)],
    );
    for (const { name, value } of boot.fields) facts.push(fieldFact(name, value));
  }
  showImage(file, facts, boot.fault ? `${kind}, refused` : kind);
  showRefusals(boot.fault ? [boot] : []);
  get("actions").hidden = true;
  get("chunks").hidden = get("chunks-title").hidden = true;
  get("figure").hidden = boot.sections.length === 0;
  if (boot.sections.length === 0) return;
  showSections(file, boot);
}

/** A field's name, its text, and whether it gets a line of its own. */
function fieldFact(name, value) {
  const text = fieldText(name, value);
  if (typeof value === "bigint") return [`Address of ${name}`, `${text} (0x${value.toString(16)})`, false];
  return [FIELD_NAMES[name], value instanceof Uint8Array && name !== "id" ? `"${text}"` : text, name !== "os"];
}

function showSections(file, boot) {
  const parts = boot.sections;
  get("parts").append(partsTable("Sections", file, parts, (it) => [it.name]));
  if (boot.found?.length > 0) {
    const fragments = boot.found.map((it, i) => ({ ...it, name: `fragment.${i}` }));
    get("parts").append(partsTable("Fragments of the vendor ramdisk", file, fragments, (it, i) => [
      `fragment ${i}`, `${it.kind}${FRAGMENTS[it.kind] ? ` ${FRAGMENTS[it.kind]}` : ""}`,
      `"${fieldText("name", boot.found[i].name)}"`,
    ], ["Type", "Name"]));
  }
  const length = Math.max(file.size, ...parts.map((it) => it.at + it.size));
  const boxes = [{ name: "--text", at: 0, size: boot.headerSize }];
  const legend = [["--text", "header at 0"]];
  parts.forEach((part, i) => {
    if (part.size === 0) return;
    boxes.push({ ...part, name: `--part${i}` });
    legend.push([`--part${i}`, `${part.name} at ${grouped(part.at)}`]);
  });
  showLegend([...legend, ["--skip", "padding"]]);
  get("picture").setAttribute("aria-valuemax", length - 1);
  let chosen = null;
  const draw = () => drawBoxes(get("picture"), boxes, length, chosen);
  shown = {
    draw, blocks: length,
    at(place) {
      const text = placeText(parts, boot.headerSize, place);
      get("pointed").textContent = text;
      get("picture").setAttribute("aria-valuetext", text);
    },
    choose(place) {
      chosen = parts.find((it) => place >= it.at && place < it.at + it.size) ?? null;
      this.at(place);
      draw();
    },
  };
  draw();
}

function placeText(parts, headerSize, place) {
  const part = parts.find((it) => place >= it.at && place < it.at + it.size);
  if (part) return `byte ${grouped(place)}: ${part.name}, from byte ${grouped(part.at)} on, ${sizeText(part.size)}`;
  return `byte ${grouped(place)}: ${place < headerSize ? "the header" : "between the sections, or behind them"}`;
}

/** A table of parts, with a button for each that saves it. */
function partsTable(title, file, parts, texts, more = []) {
  const table = document.createElement("table");
  table.append(make("caption", title));
  const head = table.createTHead().insertRow();
  for (const text of ["Part", ...more, "At byte", "Bytes", ""]) head.append(make("th", text, { scope: "col" }));
  const body = table.createTBody();
  parts.forEach((part, i) => {
    const row = body.insertRow();
    for (const text of [...texts(part, i), grouped(part.at), grouped(part.size)]) row.insertCell().textContent = text;
    const isThere = part.size > 0 && part.at + part.size <= file.size;
    const button = make("button", "Save", { type: "button", "aria-label": `Save ${part.name}` });
    button.disabled = !isThere;
    button.onclick = () => write(part.name, part.size, (sink) => save(file, part.at, part.size, sink));
    row.insertCell().append(button);
  });
  return table;
}

// ---- the picture, with the pointer and with keys

function watchPicture(canvas) {
  let block = 0;
  const under = (event) => {
    const box = canvas.getBoundingClientRect();
    const share = (event.clientX - box.left - 1) / (box.width - 2);
    return Math.max(0, Math.min(shown.blocks - 1, Math.floor(share * shown.blocks)));
  };
  canvas.onpointermove = (event) => shown?.at(under(event));
  canvas.onclick = (event) => shown?.choose(block = under(event));
  canvas.onkeydown = (event) => {
    if (!shown) return;
    const step = Math.max(1, Math.floor(shown.blocks / canvas.clientWidth));
    const to = {
      ArrowRight: block + step, ArrowUp: block + step, ArrowLeft: block - step, ArrowDown: block - step,
      PageUp: block + 10 * step, PageDown: block - 10 * step, Home: 0, End: shown.blocks - 1,
    }[event.key];
    if (to === undefined) return;
    event.preventDefault();
    block = Math.max(0, Math.min(shown.blocks - 1, to));
    canvas.setAttribute("aria-valuenow", block);
    shown.choose(block);
  };
}
