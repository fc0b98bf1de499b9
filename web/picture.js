// The picture of an image: a bar to scale. A column of pixels in which several blocks lie shows the shares of kinds.

/** How many blocks of each kind each column has, from raw at the bottom to skip at the top. */
export function shares(chunks, blocks, columns) {
  const found = { 1: new Float64Array(columns), 2: new Float64Array(columns), 3: new Float64Array(columns) };
  const scale = columns / blocks;
  for (let i = 0; i < chunks.count; i += 1) {
    const column = found[chunks.kinds[i]];
    if (column) spread(column, chunks.start(i) * scale, chunks.ends[i] * scale);
  }
  return found;
}

/** Adds what lies from one place to another to the columns that it lies in. */
function spread(column, from, to) {
  const last = Math.min(Math.floor(to), column.length - 1);
  for (let i = Math.floor(from); i <= last; i += 1) {
    column[i] += Math.max(0, Math.min(to, i + 1) - Math.max(from, i));
  }
}

/** A colour of the style sheet, which has others in the dark. */
function colour(name) {
  return getComputedStyle(document.documentElement).getPropertyValue(name).trim();
}

/** Makes a canvas as sharp as the screen, and answers its size in pixels. */
function fit(canvas) {
  const ratio = window.devicePixelRatio || 1;
  canvas.width = Math.max(1, Math.round(canvas.clientWidth * ratio));
  canvas.height = Math.max(1, Math.round(canvas.clientHeight * ratio));
  return canvas.getContext("2d");
}

/** Draws a sparse image, and a mark round the blocks from one to another. */
export function drawSparse(canvas, chunks, blocks, mark) {
  const context = fit(canvas);
  const { width, height } = canvas;
  context.fillStyle = colour("--none");
  context.fillRect(0, 0, width, height);
  const found = shares(chunks, blocks, width);
  if (blocks < width) Object.values(found).forEach((column) => column.forEach((share, x) => { column[x] = Math.round(share); }));
  const colours = { 1: colour("--raw"), 2: colour("--fill"), 3: colour("--skip") };
  for (let x = 0; x < width; x += 1) {
    let bottom = height;
    for (const kind of [1, 2, 3]) {
      const tall = found[kind][x] * height;
      if (tall <= 0) continue;
      context.fillStyle = colours[kind];
      context.fillRect(x, bottom - tall, 1, tall);
      bottom -= tall;
    }
  }
  if (mark) drawMark(context, mark.from / blocks, mark.to / blocks);
}

/** A frame from one share of the width to another. */
function drawMark(context, from, to) {
  const { width, height } = context.canvas;
  const line = Math.max(2, Math.round(2 * (window.devicePixelRatio || 1)));
  const left = Math.min(from * width, width - line);
  context.strokeStyle = colour("--text");
  context.lineWidth = line;
  context.strokeRect(left + line / 2, line / 2, Math.max(1, (to - from) * width - line), height - line);
}

/** Draws boxes of a file of this length: each from its offset on, in a colour of the style sheet. */
export function drawBoxes(canvas, boxes, length, chosen) {
  const context = fit(canvas);
  const { width, height } = canvas;
  context.fillStyle = colour("--skip");
  context.fillRect(0, 0, width, height);
  for (const { at, size, name } of boxes) {
    context.fillStyle = colour(name);
    context.fillRect(at / length * width, 0, Math.max(1, size / length * width), height);
  }
  if (chosen) drawMark(context, chosen.at / length, (chosen.at + chosen.size) / length);
}
