// What people drop or paste: which kind of text it is, and the records and turns in it.

/** @typedef {"records" | "lines" | "trace" | "stream" | "layout" | "map" | "keys"} Kind */

/**
 * A line that no command reads.
 * @param {string} line
 */
export const isIgnored = (line) => line === "" || line.startsWith("#");

/** @param {string} text */
export const linesOf = (text) => text.split("\n").map((line) => line.replace(/\r$/, ""));

const isHexadecimal = (/** @type {string} */ line) => /^(?:[0-9A-Fa-f] *)+$/.test(line);
const isPrelude = (/** @type {string} */ line) => line === "turn" || /^size \d/.test(line);
const isOrderLine = (/** @type {string} */ line) =>
  /^(?:W|EW|EWA|EAU|RB|RM|RMA|NOP)(?: |$)/.test(line);
const isKey = (/** @type {string} */ line) =>
  /^(?:type [0-9A-F]{2}|left|right|up|down|tab|backtab|newline|home|eraseeof|eraseinput|delete|reset|enter|clear|pf\d+|pa\d)$/.test(line);
const isTraced = (/** @type {string} */ line) => /^[<>] 0x[0-9a-f]+ /.test(line);
const isMacro = (/** @type {string} */ line) => /^[^*].*\bDFHM(?:SD|DI|DF)\b/.test(line);
const isToml = (/** @type {string} */ line) =>
  /^\s*(?:\[\[\s*"?field"?\s*\]\]|(?:default|alternate|screen|addresses|name|row|col|length|kind)\s*=)/.test(line);

/**
 * The command Telnet, FF, begins a captured stream; no record begins so.
 * @param {string} line
 */
const isStream = (line) => isHexadecimal(line) && /^F ?F/i.test(line);

/**
 * Which kind of text it is, and why: by the first lines that tell it. None where none does.
 * @param {string} text @returns {{kind: Kind, why: string} | {kind: null, why: string}}
 */
export function kindOf(text) {
  const lines = linesOf(text.slice(0, 200_000));
  const told = lines.filter((line) => !isIgnored(line) && !isPrelude(line));
  if (lines.some(isMacro)) return { kind: "map", why: "it has a macro DFHMSD, DFHMDI or DFHMDF" };
  if (told.some(isTraced)) return { kind: "trace", why: "it has lines < 0x.. of an x3270 trace" };
  const first = told[0];
  if (first === undefined) return { kind: null, why: "there is no line in it that says anything" };
  if (isToml(first)) return { kind: "layout", why: `its first line is TOML: ${first.trim()}` };
  if (isOrderLine(first)) return { kind: "lines", why: `its first line is a command: ${first}` };
  if (isKey(first)) return { kind: "keys", why: `its first line is a key: ${first}` };
  if (isStream(first)) return { kind: "stream", why: "its first bytes are FF, a Telnet command" };
  if (isHexadecimal(first)) return { kind: "records", why: "its first line is hexadecimal" };
  return { kind: null, why: `its first line is of no kind that is known: ${first.slice(0, 60)}` };
}

/**
 * The records of a text: the lines that they stand on, counted from 0, and their turns; and where it tells sizes.
 * @param {string} text
 */
export function recordsIn(text) {
  const lines = linesOf(text);
  /** @type {{line: number, turn: number}[]} */
  const records = [];
  let size = -1;
  let turn = 0;
  lines.forEach((line, index) => {
    if (isIgnored(line)) return;
    if (line === "turn") turn += 1;
    else if (/^size /.test(line) && size < 0 && records.length === 0) size = index;
    else records.push({ line: index, turn });
  });
  return { lines, records, size, turns: turn + 1 };
}

/** @typedef {ReturnType<typeof recordsIn>} Parsed */

/**
 * The text of the first so many records alone, each on its line: what is left out is an empty line.
 * @param {Parsed} parsed @param {number} count @param {{size: boolean}} keep whether the line of sizes stays
 */
export function front({ lines, records, size }, count, keep) {
  const kept = new Set(records.slice(0, count).map((record) => record.line));
  if (keep.size && size >= 0) kept.add(size);
  return lines.map((line, index) => (kept.has(index) ? line : "")).join("\n");
}

/**
 * The same with the lines `turn` in it.
 * @param {Parsed} parsed
 */
export function dialogue({ lines, size }) {
  return lines.map((line, index) => (index === size ? "" : line)).join("\n");
}

/**
 * Where the digits of a byte stand in a line of hexadecimal, whose spaces don't count.
 * @param {string} line @param {number} byte counted from 0
 */
export function placeOfByte(line, byte) {
  let digits = 0;
  for (let index = 0; index < line.length; index += 1) {
    if (line[index] === " ") continue;
    if (digits === 2 * byte) return index;
    digits += 1;
  }
  return line.length;
}

/**
 * The byte of a line of hexadecimal.
 * @param {string} line
 * @param {number} byte
 */
export const byteOf = (line, byte) => line.replace(/ /g, "").slice(2 * byte, 2 * byte + 2);

/**
 * The line of a layout, counted from 0, where the entry of a name begins; -1 where it isn't found.
 * @param {string} layout @param {string} name
 */
export function lineOfEntry(layout, name) {
  const lines = linesOf(layout);
  const named = lines.findIndex((line) => line.trim() === `name = "${name}"`);
  for (let index = named; index >= 0; index -= 1) {
    if (/^\s*\[\[/.test(lines[index] ?? "")) return index;
  }
  return named;
}

const COMMANDS = new Map([
  ["11", "Set Buffer Address"], ["1D", "Start Field"], ["29", "Start Field Extended"], ["2C", "Modify Field"],
  ["28", "Set Attribute"], ["13", "Insert Cursor"], ["05", "Program Tab"], ["3C", "Repeat to Address"],
  ["12", "Erase Unprotected to Address"], ["08", "Graphic Escape"],
]);

/**
 * The name of the order that begins with a byte; other bytes are text.
 * @param {string} digits
 */
export const orderName = (digits) => COMMANDS.get(digits.toUpperCase()) ?? "text";
