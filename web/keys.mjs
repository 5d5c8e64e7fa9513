// The operator's keys: which key of the page's keyboard is which, as lines that `press` takes.

const NAMED = new Map([
  ["Enter", "enter"], ["Tab", "tab"], ["ArrowLeft", "left"], ["ArrowRight", "right"], ["ArrowUp", "up"], ["ArrowDown", "down"],
  ["Home", "home"], ["End", "eraseeof"], ["Delete", "delete"], ["PageUp", "pf7"], ["PageDown", "pf8"],
]);
const SHIFTED = new Map([["Tab", "backtab"], ["Enter", "newline"], ["End", "eraseinput"]]);

/** The keys that have a button: its words, the line, and what it does. */
export const BUTTONS = [
  ["Enter", "enter"], ["Clear", "clear"], ["Reset", "reset"], ["Tab", "tab"], ["Back tab", "backtab"], ["New line", "newline"], ["Home", "home"],
  ["Erase EOF", "eraseeof"], ["Erase input", "eraseinput"], ["Delete", "delete"], ["PA1", "pa1"], ["PA2", "pa2"], ["PA3", "pa3"],
];

/**
 * The lines of a key that was pressed; none where it isn't one of the operator's.
 * @param {KeyboardEvent} event @param {Map<string, string>} codes the code of each character that can be typed
 */
export function linesOfKey(event, codes) {
  if (event.ctrlKey || event.metaKey || event.altKey) return event.ctrlKey && event.key === "r" ? ["reset"] : [];
  const shifted = event.shiftKey ? SHIFTED.get(event.key) : undefined;
  if (shifted) return [shifted];
  const named = NAMED.get(event.key);
  if (named) return [named];
  const number = /^F(\d+)$/.exec(event.key);
  if (number) return [`pf${Number(number[1]) + (event.shiftKey ? 12 : 0)}`];
  return linesOfText(event.key.length === 1 ? event.key : "", codes);
}

/**
 * The lines that type a text; characters without a code are left out.
 * @param {string} text
 * @param {Map<string, string>} codes
 */
export function linesOfText(text, codes) {
  return [...text].flatMap((character) => {
    const code = codes.get(character);
    return code === undefined ? [] : [`type ${code}`];
  });
}

/**
 * The keys of a finding, each as often as it is pressed.
 * @param {{key: string, times: number}[]} keys
 */
export const linesOfDemo = (keys) => keys.flatMap(({ key, times }) => Array.from({ length: times }, () => key));
