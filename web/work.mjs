// What the page asks of the library: the screen after some records and keys, what is found, and what was sent.

import { dialogue, front, recordsIn } from "./inputs.mjs";

/** @typedef {import("./takvorn.mjs").Takvorn} Library */
/** @typedef {{at: number, attribute: string, characters: string, codes: string, place: number, length: number, hidden: boolean, intensified: boolean, modified: boolean, numeric: boolean, protected: boolean}} Field */
/** @typedef {{aid: string, codes: string[], columns: number, cursor: number, fields: Field[], graphic_escapes: number[], keyboard: string, rows: number, text: string[]}} Screen */
/** @typedef {{number: number, name: string, words: string, help?: string, place?: number, length?: number, declared?: number, entry?: string, record?: number, line?: number, byte?: number, keys?: {key: string, times: number}[], sends?: string}} Finding */

const SIZED = /^size (\d+x\d+)(?: (\d+x\d+))?( 16)?\s*$/;

/**
 * A layout without entries, of the sizes that records tell.
 * @param {import("./inputs.mjs").Parsed} parsed
 */
function bareLayout(parsed) {
  const told = SIZED.exec(parsed.lines[parsed.size] ?? "");
  if (!told) return 'default = "24x80"\n';
  const [, first, second = first, wide] = told;
  return `default = "${first}"\nalternate = "${second}"\n${wide ? "addresses = 16\n" : ""}`;
}

export class Work {
  /** @param {Library} library */
  constructor(library) {
    this.library = library;
    this.codes = this.readCodes();
  }

  /** The code of each character that can be typed: read off a screen that shows all codes from 40 to FE. */
  readCodes() {
    const codes = Array.from({ length: 0xbf }, (_, index) => (0x40 + index).toString(16).toUpperCase());
    const { text } = this.library.call("show_json", `F5C2${codes.join("")}`);
    const shown = JSON.parse(text).text.join("");
    /** @type {Map<string, string>} */
    const found = new Map();
    codes.forEach((code, index) => {
      const character = shown[index];
      if (character !== "?" && !found.has(character)) found.set(character, code);
    });
    return found.set("?", "6F");
  }

  /**
   * The screen after the first so many records, and then keys: its drawing, its facts, and what each key did; or the fault.
   * @param {string} records @param {number} count @param {string[]} keys
   */
  screen(records, count, keys) {
    const text = front(recordsIn(records), count, { size: true });
    const lines = keys.join("\n");
    const facts = this.library.call("show_pressed", text, lines, true);
    if (facts.status !== 0) return { fault: facts.text.trim() };
    const drawing = this.library.call("show_pressed", text, lines, false).text;
    /** @type {Screen} */
    const screen = JSON.parse(facts.text);
    const told = keys.length === 0 ? [] : this.library.call("press", text, lines).text.trim().split("\n");
    return { screen, drawing: drawing.replace(/^<\?xml[^>]*>\s*/, ""), told };
  }

  /**
   * What stands against the records and the layouts of their turns.
   * @param {string} records @param {string[]} layouts
   * @returns {{findings: Finding[], verdict: string, words?: string}}
   */
  verdict(records, layouts) {
    const parsed = recordsIn(records);
    if (parsed.turns > 1) return this.talked(dialogue(parsed), layouts.slice(0, parsed.turns));
    const text = front(parsed, parsed.records.length, { size: false });
    const told = this.library.call("check_json", layouts[0] ?? "", text);
    const lines = told.text.trim().split("\n").map((line) => JSON.parse(line));
    const { verdict, words } = lines.pop();
    return { findings: lines, verdict, words };
  }

  /** @param {string} records @param {string[]} layouts */
  talked(records, layouts) {
    const told = this.library.call("talk", layouts, records);
    const lines = told.text.trim().split("\n");
    if (told.status === 0) return { findings: [], verdict: "yes" };
    if (told.status !== 1) return { findings: [], verdict: "refused", words: lines[0] };
    const findings = lines.map((words) => ({ number: Number(/^F(\d+)/.exec(words)?.[1] ?? 0), name: "", words }));
    return { findings, verdict: "no" };
  }

  /**
   * The order that wrote last at each place: its record and byte; none where no order did.
   * @param {string} records
   * @param {number} count
   */
  origins(records, count) {
    const parsed = recordsIn(records);
    const text = front(parsed, count, { size: false });
    const told = this.library.call("origins", bareLayout(parsed), text);
    if (told.status !== 0) return [];
    return told.text.trimEnd().split("\n").map((line) => (line === "-" ? null : line.split(" ").map(Number)));
  }

  /**
   * A layout of the records, or why there is none.
   * @param {string} records
   * @param {number} turn
   */
  draft(records, turn) {
    const parsed = recordsIn(records);
    const last = parsed.records.filter((record) => record.turn <= turn).length;
    return this.library.call("draft", front(parsed, last, { size: true }));
  }

  /**
   * The records as order lines, those of each turn after the line `turn`.
   * @param {string} records
   * @returns {{text?: string, fault?: string}}
   */
  orderLines(records) {
    const parts = recordsIn(records).lines.join("\n").split(/^turn$/m);
    const told = parts.map((part) => this.library.call("convert", part));
    const fault = told.find((answer) => answer.status !== 0);
    return fault ? { fault: fault.text.trim() } : { text: told.map((answer) => answer.text).join("turn\n") };
  }

  /**
   * The records that order lines say.
   * @param {string} lines
   * @returns {{text?: string, fault?: string}}
   */
  recordsOf(lines) {
    const told = lines.split(/^turn$/m).map((part) => this.library.call("convert_back", part));
    const fault = told.find((answer) => answer.status !== 0);
    return fault ? { fault: fault.text.trim() } : { text: told.map((answer) => answer.text).join("turn\n") };
  }

  /**
   * What was sent, by the names of a layout.
   * @param {string} layout
   * @param {string} bytes in hexadecimal
   */
  bound(layout, bytes) {
    return this.library.call("bind", layout, bytes, true).text.trim();
  }
}
