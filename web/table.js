// A table of any length, of which only the rows that are seen stand in the page. It is a grid that has the focus as a
// whole: the arrow keys, Page Up, Page Down, Home and End move the current row.

/** How many rows are seen at once. */
const MOST_SEEN = 14;

/** Browsers make no element much taller than this. */
const TALLEST = 8_000_000;

export class LongTable {
  /** `cells` answers the texts of row i; `chosen` is called with the row that became the current one. */
  constructor(box, columns, count, cells, chosen) {
    this.box = box;
    this.count = count;
    this.cells = cells;
    this.chosen = chosen;
    this.current = -1;
    this.first = 0;
    box.replaceChildren();
    box.setAttribute("aria-rowcount", count + 1);
    box.setAttribute("aria-colcount", columns.length);
    this.tall = box.appendChild(document.createElement("div"));
    this.tall.className = "tall";
    const table = this.tall.appendChild(document.createElement("table"));
    table.setAttribute("role", "presentation");
    const head = table.createTHead();
    head.setAttribute("role", "rowgroup");
    addRow(head, columns, "columnheader").setAttribute("aria-rowindex", 1);
    this.body = table.createTBody();
    this.body.setAttribute("role", "rowgroup");
    this.table = table;
    box.onscroll = () => this.#draw();
    box.onkeydown = (event) => this.#key(event);
    box.onclick = (event) => {
      const row = event.target.closest("tbody tr");
      if (row) this.choose(Number(row.dataset.row));
    };
    this.resize();
  }

  /** Measures a row, and draws anew. */
  resize() {
    this.body.replaceChildren();
    if (this.count > 0) {
      const probe = addRow(this.body, this.cells(0), "gridcell");
      this.height = Math.max(1, probe.getBoundingClientRect().height);
    } else {
      this.height = 1;
    }
    const head = this.table.tHead.getBoundingClientRect().height;
    this.seen = Math.min(this.count, MOST_SEEN);
    this.box.style.height = `${head + this.seen * this.height + 18}px`; // with room for a bar to scroll sideways
    this.tall.style.height = `${Math.min(TALLEST, head + this.count * this.height)}px`;
    this.#draw();
  }

  get #last() {
    return Math.max(0, this.count - this.seen);
  }

  #draw() {
    const room = this.box.scrollHeight - this.box.clientHeight;
    this.first = room <= 0 ? 0 : Math.round(this.box.scrollTop / room * this.#last);
    this.body.replaceChildren();
    for (let i = this.first; i < Math.min(this.first + this.seen, this.count); i += 1) {
      const row = addRow(this.body, this.cells(i), "gridcell");
      row.id = `${this.box.id}-${i}`;
      row.dataset.row = i;
      row.setAttribute("aria-rowindex", i + 2);
      row.setAttribute("aria-selected", i === this.current);
    }
    if (this.current >= 0) this.box.setAttribute("aria-activedescendant", `${this.box.id}-${this.current}`);
    else this.box.removeAttribute("aria-activedescendant");
  }

  /** Makes a row the current one, and shows it. */
  choose(i) {
    this.current = Math.max(0, Math.min(i, this.count - 1));
    const isSeen = this.current >= this.first && this.current < this.first + this.seen;
    if (!isSeen) {
      const first = this.current < this.first ? this.current : this.current - this.seen + 1;
      const room = this.box.scrollHeight - this.box.clientHeight;
      this.box.scrollTop = this.#last === 0 ? 0 : first / this.#last * room;
    }
    this.#draw();
    this.chosen(this.current);
  }

  #key(event) {
    const to = {
      ArrowDown: this.current + 1, ArrowUp: this.current - 1,
      PageDown: this.current + this.seen, PageUp: this.current - this.seen,
      Home: 0, End: this.count - 1,
    }[event.key];
    if (to === undefined || this.count === 0) return;
    event.preventDefault();
    this.choose(to);
  }
}

function addRow(part, texts, role) {
  const row = part.insertRow();
  row.setAttribute("role", "row");
  for (const text of texts) {
    const cell = row.insertCell();
    cell.setAttribute("role", role);
    cell.textContent = text;
  }
  return row;
}
