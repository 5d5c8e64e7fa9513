// The screen: the library's drawing, frames round findings over it, and the place under the pointer.

const CELL = { width: 10, height: 20, margin: 10 };
const SVG = "http://www.w3.org/2000/svg";

/** The parts of rows that so many cells from a place on take; they go on round the end of the screen. */
export function spans(/** @type {{rows: number, columns: number}} */ { rows, columns }, /** @type {number} */ place, /** @type {number} */ length) {
  const cells = rows * columns;
  const parts = [];
  for (let done = 0; done < Math.min(length, cells); ) {
    const at = (place + done) % cells;
    const count = Math.min(length - done, columns - (at % columns), cells - at);
    parts.push({ row: Math.floor(at / columns), column: at % columns, count });
    done += count;
  }
  return parts;
}

/**
 * The field whose cells a place is among, its attribute too.
 * @param {import("./work.mjs").Screen} screen
 * @param {number} place
 */
export function fieldAt(screen, place) {
  const before = screen.fields.filter((field) => field.at <= place);
  return before[before.length - 1] ?? screen.fields[screen.fields.length - 1];
}

/** The place and the number of cells that a finding is about; none where it is about the whole screen. */
export function cellsOf(/** @type {import("./work.mjs").Screen} */ screen, /** @type {import("./work.mjs").Finding} */ finding) {
  if (finding.place === undefined) return null;
  const field = screen.fields.find((one) => one.place === finding.place);
  const length = finding.length ?? field?.length ?? finding.declared ?? 1;
  return { place: finding.place, length: Math.max(1, length) };
}

/** @param {string} name @param {Record<string, string | number>} attributes */
function element(name, attributes) {
  const made = document.createElementNS(SVG, name);
  Object.entries(attributes).forEach(([key, value]) => made.setAttribute(key, String(value)));
  return made;
}

/** @param {{row: number, column: number, count: number}} part */
const box = ({ row, column, count }) => ({
  x: CELL.margin + CELL.width * column, y: CELL.margin + CELL.height * row, width: CELL.width * count, height: CELL.height,
});

export class ScreenView {
  /** @param {HTMLElement} host */
  constructor(host) {
    // A root of its own, so that the drawing's styles stay in it.
    this.root = host.attachShadow({ mode: "open" });
    this.root.innerHTML = `<style>
      :host { display: block; position: relative; background: #000; border-radius: 6px; overflow: hidden }
      svg { display: block; width: 100%; height: auto } svg.over { position: absolute; inset: 0 }
      rect.finding { fill: red; fill-opacity: .18; stroke: #ff5c5c; stroke-width: 1.5 } rect.finding.picked { fill-opacity: .45; stroke: #fff }
      rect.under { fill: #fff; fill-opacity: .18 } rect.field { fill: none; stroke: #8ab4f8; stroke-dasharray: 3 2 }
      rect.hidden { fill: #888; fill-opacity: .35 } text.number { font: bold 9px sans-serif; fill: #fff }
    </style><div id="drawing"></div><svg class="over" aria-hidden="true"></svg>`;
    this.drawing = /** @type {HTMLElement} */ (this.root.getElementById("drawing"));
    this.over = /** @type {SVGSVGElement} */ (this.root.querySelector("svg.over"));
    /** @type {import("./work.mjs").Screen | null} */
    this.screen = null;
    this.pointer = element("g", {});
  }

  /** @param {import("./work.mjs").Screen} screen @param {string} drawing @param {import("./work.mjs").Finding[]} findings @param {number} picked */
  show(screen, drawing, findings, picked) {
    this.screen = screen;
    this.drawing.innerHTML = drawing;
    const size = [2 * CELL.margin + CELL.width * screen.columns, 2 * CELL.margin + CELL.height * screen.rows];
    this.over.setAttribute("viewBox", `0 0 ${size.join(" ")}`);
    this.over.replaceChildren(...this.hidden(screen), ...findings.flatMap((one, index) => this.frame(screen, one, index, picked)), this.pointer);
    this.pointer.replaceChildren();
  }

  /**
   * What is typed into a hidden field isn't seen, but that there is one.
   * @param {import("./work.mjs").Screen} screen
   */
  hidden(screen) {
    const fields = screen.fields.filter((field) => field.hidden && !field.protected);
    return fields.flatMap((field) => spans(screen, field.place, field.length).map((part) => element("rect", { class: "hidden", ...box(part) })));
  }

  /** @param {import("./work.mjs").Screen} screen @param {import("./work.mjs").Finding} finding @param {number} index @param {number} picked */
  frame(screen, finding, index, picked) {
    const about = cellsOf(screen, finding) ?? { place: 0, length: screen.rows * screen.columns };
    const whole = finding.place === undefined;
    const parts = whole ? [{ row: 0, column: 0, count: screen.columns }] : spans(screen, about.place, about.length);
    return parts.flatMap((part, nth) => {
      const sides = whole ? { ...box(part), height: CELL.height * screen.rows, "fill-opacity": 0 } : box(part);
      const frame = element("rect", { class: index === picked ? "finding picked" : "finding", ...sides });
      frame.dataset["finding"] = String(index);
      if (nth > 0) return [frame];
      const label = element("text", { class: "number", x: sides.x + 1, y: sides.y - 1 });
      label.textContent = `F${finding.number}`;
      return [frame, label];
    });
  }

  /**
   * The place under a pointer, counted from 0; none outside of the cells.
   * @param {PointerEvent | MouseEvent} event
   */
  placeAt(event) {
    if (!this.screen) return null;
    const edges = this.over.getBoundingClientRect();
    const scale = (2 * CELL.margin + CELL.width * this.screen.columns) / edges.width;
    const column = Math.floor(((event.clientX - edges.left) * scale - CELL.margin) / CELL.width);
    const row = Math.floor(((event.clientY - edges.top) * scale - CELL.margin) / CELL.height);
    const inside = column >= 0 && row >= 0 && column < this.screen.columns && row < this.screen.rows;
    return inside ? row * this.screen.columns + column : null;
  }

  /**
   * Marks a place and its field.
   * @param {number | null} place
   */
  mark(place) {
    if (!this.screen || place === null) return this.pointer.replaceChildren();
    const screen = this.screen;
    const field = fieldAt(screen, place);
    const cells = field ? spans(screen, field.place, field.length) : [];
    const marks = cells.map((part) => element("rect", { class: "field", ...box(part) }));
    this.pointer.replaceChildren(...marks, ...spans(screen, place, 1).map((part) => element("rect", { class: "under", ...box(part) })));
  }
}
