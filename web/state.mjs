// What somebody works on, and its form in the fragment of the page's address: nothing of it leaves the page.

/** @typedef {{records: string, layouts: string[], keys: string[], step: number | null, map: string}} State */

export const EMPTY = Object.freeze({ records: "", layouts: [""], keys: [], step: null, map: "" });

/**
 * Bytes through a stream of the browser's own.
 * @param {Uint8Array} bytes
 * @param {GenericTransformStream} coder
 */
async function through(bytes, coder) {
  const stream = new Blob([bytes]).stream().pipeThrough(coder);
  return new Uint8Array(await new Response(stream).arrayBuffer());
}

/** @param {Uint8Array} bytes */
function toLetters(bytes) {
  let letters = "";
  bytes.forEach((byte) => (letters += String.fromCharCode(byte)));
  return btoa(letters).replace(/\+/g, "-").replace(/\//g, "_").replace(/=+$/, "");
}

/** @param {string} letters the letters of base64 (RFC 4648, section 4) */
export function bytesOfLetters(letters) {
  const text = atob(letters);
  const bytes = new Uint8Array(text.length);
  for (let index = 0; index < text.length; index += 1) bytes[index] = text.charCodeAt(index);
  return bytes;
}

/** @param {string} letters */
const fromLetters = (letters) => bytesOfLetters(letters.replace(/-/g, "+").replace(/_/g, "/"));

/**
 * The fragment of a state, `#1` and its letters.
 * @param {State} state
 */
export async function toFragment(state) {
  const bytes = new TextEncoder().encode(JSON.stringify(state));
  return `#1${toLetters(await through(bytes, new CompressionStream("deflate-raw")))}`;
}

/**
 * The state that a fragment tells; none where it tells none.
 * @param {string} fragment
 * @returns {Promise<State | null>}
 */
export async function fromFragment(fragment) {
  if (!fragment.startsWith("#1")) return null;
  try {
    const bytes = await through(fromLetters(fragment.slice(2)), new DecompressionStream("deflate-raw"));
    const told = JSON.parse(new TextDecoder().decode(bytes));
    const isText = (/** @type {unknown} */ value) => typeof value === "string";
    const isTexts = (/** @type {unknown} */ value) => Array.isArray(value) && value.every(isText);
    const isState = isText(told.records) && isText(told.map) && isTexts(told.layouts) && isTexts(told.keys);
    return isState ? { ...EMPTY, ...told, step: Number.isInteger(told.step) ? told.step : null } : null;
  } catch {
    return null;
  }
}
