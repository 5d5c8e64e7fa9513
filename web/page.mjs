// The page: what is dropped, pasted and typed goes to the library, and what that answers is shown.

import { Takvorn } from "./takvorn.mjs";
import { byteOf, front, kindOf, lineOfEntry, linesOf, orderName, placeOfByte, recordsIn } from "./inputs.mjs";
import { BUTTONS, linesOfDemo, linesOfKey, linesOfText } from "./keys.mjs";
import { ScreenView, cellsOf, fieldAt } from "./screen.mjs";
import { EMPTY, fromFragment, toFragment } from "./state.mjs";
import { Work } from "./work.mjs";

/** Texts longer than this aren't put into a field of the page. */
const MOST_SHOWN = 400_000;
const MILLISECONDS_A_KEY = 140;

const at = (/** @type {string} */ id) => /** @type {HTMLElement} */ (document.getElementById(id));
const area = (/** @type {string} */ id) => /** @type {HTMLTextAreaElement} */ (document.getElementById(id));
const told = (/** @type {string} */ id) => JSON.parse(at(id).textContent || "null");

/** @param {string} name @param {Record<string, string>} attributes @param {...(Node | string)} parts */
function made(name, attributes = {}, ...parts) {
  const element = document.createElement(name);
  Object.entries(attributes).forEach(([key, value]) => element.setAttribute(key, value));
  element.append(...parts);
  return element;
}

class Page {
  /** @param {Work} work */
  constructor(work) {
    this.work = work;
    /** @type {import("./state.mjs").State} */
    this.state = { ...EMPTY };
    this.view = new ScreenView(at("screen"));
    /** @type {import("./work.mjs").Finding[]} */
    this.findings = [];
    this.picked = -1;
    this.turn = 0;
    this.playing = 0;
    /** @type {(number[] | null)[] | null} */
    this.origins = null;
    this.meanings = told("meanings");
  }

  /** @param {string} text @param {boolean} [isBad] */
  note(text, isBad = false) {
    at("note").textContent = text;
    at("note").classList.toggle("bad", isBad);
  }

  /**
   * Does something with the library. Where that stops it is there anew, and what was put in is kept.
   * @param {() => void} does
   */
  safely(does) {
    try {
      does();
    } catch (fault) {
      this.note(`The module stopped (${fault instanceof Error ? fault.message : fault}). It was started anew; what you put in is kept.`, true);
    }
  }

  /** @param {Partial<import("./state.mjs").State>} change */
  change(change) {
    this.state = { ...this.state, ...change };
    this.safely(() => this.render());
  }

  get parsed() {
    return recordsIn(this.state.records);
  }

  /** How many records are shown. */
  get count() {
    const all = this.parsed.records.length;
    return this.state.step === null ? all : Math.min(this.state.step, all);
  }

  render() {
    this.origins = null;
    this.renderVerdict();
    this.renderScreen();
    this.renderSteps();
    this.renderLayout();
    this.renderRecords();
    this.remember();
  }

  renderVerdict() {
    const { records, layouts } = this.state;
    const told = records.trim() === "" ? null : this.work.verdict(records, layouts);
    this.findings = told?.findings ?? [];
    if (this.picked >= this.findings.length) this.picked = -1;
    const words = told === null ? "Drop records and a layout, or choose an example." : this.verdictWords(told);
    at("verdict").className = told?.verdict ?? "";
    at("verdict").textContent = words;
    at("findings").replaceChildren(...this.findings.map((finding, index) => this.findingItem(finding, index)));
    at("tab-findings").textContent = this.findings.length === 0 ? "Findings" : `Findings (${this.findings.length})`;
  }

  /** @param {{verdict: string, words?: string}} told */
  verdictWords(told) {
    if (told.verdict === "yes") return "yes: whatever keys are pressed, Enter sends the layout's fields and nothing else.";
    if (told.verdict === "refused") return `refused: ${told.words}`;
    return `no: ${this.findings.length} ${this.findings.length === 1 ? "finding" : "findings"}`;
  }

  /** @param {import("./work.mjs").Finding} finding @param {number} index */
  findingItem(finding, index) {
    const words = made("button", { type: "button", class: "words" }, finding.words);
    words.addEventListener("click", () => this.pick(index));
    const item = made("li", index === this.picked ? { class: "picked" } : {}, words);
    const meaning = this.meanings[`F${finding.number}`];
    if (meaning) item.append(made("p", {}, `It means: ${meaning}.`));
    if (finding.help) item.append(made("p", {}, `Mend: ${finding.help}.`));
    item.append(made("div", { class: "tools" }, ...this.findingButtons(finding, index)));
    if (finding.sends) item.append(made("p", { class: "quiet" }, "It sends ", made("code", {}, finding.sends)));
    return item;
  }

  /**
   * What can be done with a finding: its keys pressed, its byte and its entry looked at.
   * @param {import("./work.mjs").Finding} finding @param {number} index
   */
  findingButtons(finding, index) {
    const { line, entry } = finding;
    /** @type {[string, boolean, () => void][]} */
    const all = [
      ["Show me", finding.keys !== undefined, () => this.play(index)],
      ["The record's byte", line !== undefined, () => this.look("records", () => this.selectByte((line ?? 1) - 1, finding.byte ?? 0))],
      ["The layout's entry", entry !== undefined, () => this.look("layout", () => this.selectEntry(entry ?? ""))],
    ];
    return all.filter(([, is]) => is).map(([words, , does]) => {
      const button = made("button", { type: "button" }, words);
      button.addEventListener("click", does);
      return button;
    });
  }

  /**
   * Opens a text of the page where something in it is selected.
   * @param {"records" | "layout"} id @param {() => void} select
   */
  look(id, select) {
    this.openTab(`tab-${id}`);
    select();
    area(id).focus();
  }

  renderScreen() {
    const { records, keys } = this.state;
    const shown = records.trim() === "" ? null : this.work.screen(records, this.count, keys);
    if (!shown || shown.fault !== undefined || !shown.screen) {
      this.view.screen = null;
      this.view.drawing.textContent = "";
      this.view.over.replaceChildren();
      at("facts").textContent = shown?.fault ?? "";
      at("shown").textContent = "";
      at("sent").replaceChildren();
      return;
    }
    const atEnd = this.count === this.parsed.records.length && this.parsed.turns === 1;
    this.view.show(shown.screen, shown.drawing, atEnd ? this.findings : [], this.picked);
    at("shown").textContent = shown.screen.text.join("\n");
    this.renderFacts(shown.screen);
    this.renderSent(shown.told ?? []);
  }

  /** @param {import("./work.mjs").Screen} screen */
  renderFacts(screen) {
    const row = Math.floor(screen.cursor / screen.columns) + 1;
    const keyboard = made("span", screen.keyboard === "free" ? {} : { class: "locked" }, `keyboard ${screen.keyboard}`);
    at("facts").replaceChildren(`${screen.rows}x${screen.columns} · cursor at row ${row}, column ${(screen.cursor % screen.columns) + 1} · `, keyboard, ` · attention identifier ${screen.aid}`);
  }

  /** @param {string[]} told what each key did */
  renderSent(told) {
    const layout = this.state.layouts[this.turnShown] ?? "";
    const items = told.flatMap((line, index) => {
      if (!line.startsWith("sent ")) return [];
      const bytes = line.slice(5);
      const names = layout.trim() === "" ? "" : this.work.bound(layout, bytes);
      return [made("li", {}, made("b", {}, this.state.keys[index] ?? ""), " ", made("code", {}, bytes), names ? made("pre", {}, names) : "")];
    });
    at("sent").replaceChildren(...items);
  }

  /** The turn of the last record that is shown. */
  get turnShown() {
    return this.parsed.records[this.count - 1]?.turn ?? 0;
  }

  renderSteps() {
    const { records, turns } = this.parsed;
    const step = /** @type {HTMLInputElement} */ (at("step"));
    step.max = String(records.length);
    step.value = String(this.count);
    step.disabled = records.length < 2;
    const words = `record ${this.count} of ${records.length}${turns > 1 ? `, turn ${this.turnShown + 1} of ${turns}` : ""}`;
    step.setAttribute("aria-valuetext", words);
    at("step-label").textContent = `After ${words}`;
    const items = records.slice(0, 200).map((record, index) => this.stepItem(record, index));
    at("records-list").replaceChildren(...(records.length < 2 ? [] : items));
  }

  /** @param {{line: number, turn: number}} record @param {number} index */
  stepItem(record, index) {
    const words = this.parsed.turns > 1 ? `${record.turn + 1}.${index}` : String(index);
    const button = made("button", { type: "button", "aria-label": `After record ${index} of turn ${record.turn + 1}` }, words);
    if (index === this.count - 1) button.setAttribute("aria-current", "true");
    button.addEventListener("click", () => this.change({ step: index + 1, keys: [] }));
    return made("li", {}, button);
  }

  renderLayout() {
    const { turns } = this.parsed;
    const choice = /** @type {HTMLSelectElement} */ (at("turn"));
    if (choice.options.length !== turns) {
      choice.replaceChildren(...Array.from({ length: turns }, (_, turn) => made("option", { value: String(turn) }, String(turn + 1))));
    }
    this.turn = Math.min(this.turn, turns - 1);
    choice.value = String(this.turn);
    at("turn-label").hidden = turns < 2;
    this.put("layout", this.state.layouts[this.turn] ?? "");
  }

  renderRecords() {
    this.put("records", this.state.records);
    if (document.activeElement === area("orders")) return;
    if (this.state.records.length > MOST_SHOWN) return this.put("orders", "");
    /** @type {{text?: string, fault?: string}} */
    const lines = this.state.records.trim() === "" ? { text: "" } : this.work.orderLines(this.state.records);
    at("records-fault").textContent = lines.fault ?? "";
    if (lines.text !== undefined) this.put("orders", lines.text);
  }

  /**
   * Puts a text into a field of the page that nobody is writing in.
   * @param {string} id
   * @param {string} text
   */
  put(id, text) {
    const field = area(id);
    const fits = text.length <= MOST_SHOWN;
    field.readOnly = !fits;
    const value = fits ? text : `${text.length} characters, which are not shown here`;
    if (field.value !== value && !(document.activeElement === field && fits)) field.value = value;
  }

  async remember() {
    const state = this.state;
    if (state.records.length + state.layouts.join("").length > 60_000) return;
    const fragment = await toFragment(state);
    if (state === this.state && location.hash !== fragment) history.replaceState(null, "", fragment);
  }

  // ---- what somebody does

  /**
   * Goes to what a finding is about: the field, the record's byte and the layout's line.
   * @param {number} index
   */
  pick(index) {
    this.picked = index;
    const finding = this.findings[index];
    if (!finding) return;
    this.safely(() => {
      this.renderVerdict();
      this.renderScreen();
    });
    const cells = this.view.screen && cellsOf(this.view.screen, finding);
    if (cells) this.place(cells.place);
    if (finding.line !== undefined) this.selectByte(finding.line - 1, finding.byte ?? 0);
    if (finding.entry !== undefined) this.selectEntry(finding.entry);
    at("findings").children[index]?.querySelector("button")?.focus();
  }

  /** @param {number} line counted from 0 @param {number} byte */
  selectByte(line, byte) {
    const lines = linesOf(area("records").value);
    const before = lines.slice(0, line).join("\n").length + (line > 0 ? 1 : 0);
    const from = before + placeOfByte(lines[line] ?? "", byte);
    area("records").setSelectionRange(from, from + 2);
  }

  /** @param {string} name */
  selectEntry(name) {
    const lines = linesOf(area("layout").value);
    const line = lineOfEntry(area("layout").value, name);
    if (line < 0) return;
    const from = lines.slice(0, line).join("\n").length + (line > 0 ? 1 : 0);
    area("layout").setSelectionRange(from, from + (lines[line]?.length ?? 0));
  }

  /**
   * Presses the keys of a finding one by one.
   * @param {number} index
   */
  play(index) {
    const keys = linesOfDemo(this.findings[index]?.keys ?? []);
    const playing = (this.playing += 1);
    this.picked = index;
    this.change({ step: null, keys: [] });
    const next = (/** @type {number} */ pressed) => {
      if (playing !== this.playing || pressed > keys.length) return;
      this.change({ keys: keys.slice(0, pressed) });
      setTimeout(next, Math.min(MILLISECONDS_A_KEY, 4_000 / keys.length), pressed + 1);
    };
    next(1);
  }

  /** The keys of Backspace: one to the left, and there a character is deleted where it is the same field's. */
  backspace() {
    const screen = this.view.screen;
    const field = screen && fieldAt(screen, screen.cursor);
    const isInside = field && !field.protected && screen.cursor !== field.place && screen.cursor !== field.at;
    return isInside ? ["left", "delete"] : ["left"];
  }

  /** @param {string[]} lines */
  press(lines) {
    if (lines.length === 0) return;
    this.playing += 1;
    this.change({ keys: [...this.state.keys, ...lines] });
  }

  /**
   * Tells what stands at a place.
   * @param {number | null} place
   */
  place(place) {
    this.view.mark(place);
    const screen = this.view.screen;
    if (place === null || !screen) return;
    const field = fieldAt(screen, place);
    const { columns } = screen;
    const parts = [`place ${place}, row ${Math.floor(place / columns) + 1}, column ${(place % columns) + 1}`];
    if (field) parts.push(field.at === place ? `the attribute ${field.attribute}` : this.fieldWords(field));
    parts.push(this.codeWords(screen, place), this.originWords(place));
    at("place").textContent = parts.filter((part) => part !== "").join(" · ");
  }

  /** @param {import("./work.mjs").Field} field */
  fieldWords(field) {
    const kind = field.protected ? (field.numeric ? "protected, skipped" : "protected") : field.numeric ? "input, numeric" : "input";
    const looks = [kind, field.hidden && "hidden", field.intensified && "intensified", field.modified && "modified"];
    return `field at ${field.place}, ${field.length} cells, ${looks.filter(Boolean).join(", ")}`;
  }

  /**
   * The code of the character at a place, a hidden one's too; nothing of an attribute.
   * @param {import("./work.mjs").Screen} screen @param {number} place
   */
  codeWords(screen, place) {
    const code = screen.codes.join("").slice(2 * place, 2 * place + 2);
    if (code === "1D") return "";
    if (code === "00") return "a null";
    return screen.graphic_escapes.includes(place) ? `code ${code} of the alternate set` : `code ${code}`;
  }

  /**
   * The order and the byte that wrote a place.
   * @param {number} place
   */
  originWords(place) {
    this.origins ??= this.state.records.length > MOST_SHOWN ? [] : this.work.origins(this.state.records, this.count);
    const origin = this.origins[place];
    if (!origin) return "";
    const [record = 0, byte = 0] = origin;
    const line = this.parsed.lines[this.parsed.records[record]?.line ?? -1] ?? "";
    return `written by record ${record}, byte ${byte}: ${orderName(byteOf(line, byte))}`;
  }

  /**
   * Takes a text for what it is.
   * @param {string} text
   * @param {string} [name] the file's
   */
  take(text, name = "the text") {
    const { kind, why } = kindOf(text);
    if (kind === null) return this.note(`${name} can't be taken: ${why}.`, true);
    const does = {
      records: () => this.change({ records: text, keys: [], step: null }),
      lines: () => this.takeAnswer(this.work.recordsOf(text)),
      trace: () => this.takeTrace(text, false),
      stream: () => this.takeTrace(text, true),
      layout: () => this.takeLayout(text),
      map: () => this.takeMap(text),
      keys: () => this.change({ keys: linesOf(text).filter((line) => line !== "" && !line.startsWith("#")) }),
    }[kind];
    const words = { records: "records", lines: "order lines", trace: "a trace", stream: "a captured stream", layout: "a layout", map: "BMS source", keys: "keys" }[kind];
    this.note(`${name} was taken for ${words}: ${why}.`);
    this.safely(does);
  }

  /** @param {{text?: string, fault?: string}} answer */
  takeAnswer({ text, fault }) {
    if (text === undefined) return this.note(`It can't be read: ${fault}`, true);
    this.change({ records: text, keys: [], step: null });
  }

  /** @param {string} text @param {boolean} isStream */
  takeTrace(text, isStream) {
    const answer = this.work.library.call("records", text, isStream, false);
    if (answer.status !== 0) this.note(`It is read up to a fault: ${linesOf(answer.text.trim()).pop()}`, true);
    this.change({ records: answer.text, keys: [], step: null });
  }

  /** @param {string} text */
  takeLayout(text) {
    const layouts = [...this.state.layouts];
    layouts[this.turn] = text;
    this.change({ layouts });
  }

  /** @param {string} text */
  takeMap(text) {
    if (!this.work.library.has("map")) return this.note("This page has no reader of BMS source.", true);
    const records = this.work.library.call("map", text, "", false, false, false);
    if (records.status !== 0) return this.note(`The source is refused: ${linesOf(records.text.trim())[0]}`, true);
    const layout = this.work.library.call("map", text, "", true, false, false);
    const layouts = layout.status === 0 ? [layout.text] : this.state.layouts;
    this.change({ map: text, records: records.text, layouts, keys: [], step: null });
  }

  /** @param {Iterable<File>} files */
  async takeFiles(files) {
    const all = [...files].sort((one, other) => (one.name < other.name ? -1 : 1));
    let layouts = 0;
    for (const file of all) {
      if (file.size > 16_777_216) return this.note(`${file.name} has more than 16,777,216 bytes.`, true);
      const text = await file.text();
      const isLayout = kindOf(text).kind === "layout";
      if (isLayout) this.turn = layouts;
      layouts += isLayout ? 1 : 0;
      this.take(text, file.name);
    }
    this.turn = 0;
    this.safely(() => this.render());
  }

  drafted() {
    const answer = this.work.draft(this.state.records, this.turn);
    if (answer.status === 0) this.takeLayout(answer.text);
    this.note(answer.status === 0 ? "The layout was drafted from the screen: look whether it is what the program reads." : `No layout: ${answer.text.trim()}`, answer.status !== 0);
  }

  /** @param {string} id */
  openTab(id) {
    document.querySelectorAll("[role=tab]").forEach((tab) => {
      const isOpen = tab.id === id;
      tab.setAttribute("aria-selected", String(isOpen));
      /** @type {HTMLElement} */ (tab).tabIndex = isOpen ? 0 : -1;
      at(tab.getAttribute("aria-controls") ?? "").hidden = !isOpen;
    });
  }
}

/**
 * The page's controls.
 * @param {Page} page
 */
function connect(page) {
  connectScreen(page);
  connectFields(page);
  connectTabs(page);
  connectFiles(page);
  at("draft").addEventListener("click", () => page.safely(() => page.drafted()));
  at("turn").addEventListener("change", (event) => {
    page.turn = Number(/** @type {HTMLSelectElement} */ (event.target).value);
    page.safely(() => page.renderLayout());
  });
  at("step").addEventListener("input", (event) => page.change({ step: Number(/** @type {HTMLInputElement} */ (event.target).value), keys: [] }));
  at("theme").addEventListener("click", () => {
    const isDark = getComputedStyle(document.documentElement).colorScheme === "dark" || (!document.documentElement.className && matchMedia("(prefers-color-scheme: dark)").matches);
    document.documentElement.className = isDark ? "light" : "dark";
    at("theme").setAttribute("aria-pressed", String(!isDark));
  });
  at("link").addEventListener("click", async () => {
    history.replaceState(null, "", await toFragment(page.state));
    await navigator.clipboard?.writeText(location.href).then(() => page.note("The link is on the clipboard."), () => page.note("The link stands in the address."));
  });
}

/** @param {Page} page */
function connectScreen(page) {
  const screen = at("screen");
  screen.addEventListener("keydown", (event) => {
    if (event.key === "Escape") return at("keyboard").querySelector("button")?.focus();
    const lines = event.key === "Backspace" ? page.backspace() : linesOfKey(event, page.work.codes);
    if (lines.length === 0) return;
    event.preventDefault();
    page.press(lines);
  });
  screen.addEventListener("paste", (event) => {
    event.preventDefault();
    event.stopPropagation();
    const text = event.clipboardData?.getData("text") ?? "";
    if (kindOf(text).kind !== null) return page.take(text);
    page.press(linesOfText(text.replace(/[\r\n]+/g, " "), page.work.codes));
  });
  screen.addEventListener("pointermove", (event) => page.safely(() => page.place(page.view.placeAt(event))));
  screen.addEventListener("click", (event) => {
    const frame = event.composedPath().find((one) => one instanceof SVGElement && one.dataset["finding"] !== undefined);
    if (frame) page.pick(Number(/** @type {SVGElement} */ (frame).dataset["finding"]));
  });
  const functions = Array.from({ length: 24 }, (_, index) => [`PF${index + 1}`, `pf${index + 1}`]);
  at("keyboard").replaceChildren(...[...BUTTONS, ...functions].map(([words = "", line = ""]) => {
    const button = made("button", { type: "button" }, words);
    button.addEventListener("click", () => page.press([line]));
    return button;
  }), again(page));
}

/**
 * The button that takes all keys back.
 * @param {Page} page
 */
function again(page) {
  const button = made("button", { type: "button" }, "Take keys back");
  button.addEventListener("click", () => page.change({ keys: [] }));
  return button;
}

/** @param {Page} page */
function connectFields(page) {
  area("layout").addEventListener("input", () => page.safely(() => page.takeLayout(area("layout").value)));
  area("records").addEventListener("input", () => page.change({ records: area("records").value, keys: [], step: null }));
  area("orders").addEventListener("input", () => page.safely(() => {
    const { text, fault } = page.work.recordsOf(area("orders").value);
    at("records-fault").textContent = fault ?? "";
    if (text !== undefined) page.change({ records: text, keys: [], step: null });
  }));
  ["records", "layout", "orders"].forEach((id) => area(id).addEventListener("paste", (event) => event.stopPropagation()));
}

/** @param {Page} page */
function connectTabs(page) {
  const tabs = [...document.querySelectorAll("[role=tab]")].map((tab) => /** @type {HTMLElement} */ (tab));
  tabs.forEach((tab, index) => {
    tab.addEventListener("click", () => page.openTab(tab.id));
    tab.addEventListener("keydown", (event) => {
      const by = { ArrowRight: 1, ArrowLeft: tabs.length - 1 }[event.key];
      const next = by === undefined ? undefined : tabs[(index + by) % tabs.length];
      if (!next) return;
      page.openTab(next.id);
      next.focus();
    });
  });
}

/** @param {Page} page */
function connectFiles(page) {
  const files = /** @type {HTMLInputElement} */ (at("files"));
  at("open").addEventListener("click", () => files.click());
  files.addEventListener("change", () => void page.takeFiles(files.files ?? []));
  addEventListener("dragover", (event) => {
    event.preventDefault();
    document.body.classList.add("dropping");
  });
  addEventListener("dragleave", () => document.body.classList.remove("dropping"));
  addEventListener("drop", (event) => {
    event.preventDefault();
    document.body.classList.remove("dropping");
    if (event.dataTransfer?.files.length) return void page.takeFiles(event.dataTransfer.files);
    page.take(event.dataTransfer?.getData("text") ?? "");
  });
  document.addEventListener("paste", (event) => page.take(event.clipboardData?.getData("text") ?? ""));
  connectExamples(page);
}

/** @param {Page} page */
function connectExamples(page) {
  /** @type {{name: string, records: string, layouts: string[]}[]} */
  const examples = told("example-texts") ?? [];
  const choice = /** @type {HTMLSelectElement} */ (at("examples"));
  choice.append(...examples.map(({ name }, index) => made("option", { value: String(index) }, name)));
  choice.addEventListener("change", () => {
    const example = examples[Number(choice.value)];
    if (choice.value === "" || !example) return;
    page.note(`The example: ${example.name}.`);
    page.turn = 0;
    page.change({ ...EMPTY, records: example.records, layouts: example.layouts });
  });
}

/** @param {BufferSource} bytes the module */
export async function start(bytes) {
  const page = new Page(new Work(await Takvorn.load(bytes)));
  connect(page);
  addEventListener("hashchange", async () => {
    const state = await fromFragment(location.hash);
    if (state) page.change(state);
  });
  const state = await fromFragment(location.hash);
  page.note("Drop or paste records in hexadecimal, order lines, a trace, a captured stream, BMS source or a layout.");
  const first = (told("example-texts") ?? [])[0];
  page.change(state ?? (first ? { records: first.records, layouts: first.layouts } : {}));
  performance.mark("first-screen");
  document.documentElement.dataset["ready"] = "";
  Object.assign(globalThis, { takvornPage: page });
}
