// Takvorn's C functions (include/takvorn.h) over a WebAssembly module: texts in, `{status, bytes, text}` out.

const encoder = new TextEncoder();
const decoder = new TextDecoder();
const LEAST_ROOM = 65536;

/** @param {string | Uint8Array} text */
const bytesOf = (text) => (typeof text === "string" ? encoder.encode(text) : text);

export class Takvorn {
  /** @param {WebAssembly.Module} module */
  constructor(module) {
    this.module = module;
    /**
     * Blocks of the module's memory that the present call holds.
     * @type {bigint[]}
     */
    this.held = [];
    /** Bytes of room for a text; it grows to the longest that was wanted. */
    this.room = LEAST_ROOM;
    this.renew();
  }

  /** @param {WebAssembly.Module | BufferSource} source */
  static async load(source) {
    const module = source instanceof WebAssembly.Module ? source : await WebAssembly.compile(source);
    return new Takvorn(module);
  }

  /** Begins anew: after a trap the memory is half written, so that instance is done with. */
  renew() {
    /** @type {any} */
    this.exports = new WebAssembly.Instance(this.module).exports;
    this.room = LEAST_ROOM;
  }

  /**
   * Whether the module has a function, named without `takvorn_`.
   * @param {string} name
   */
  has(name) {
    return `takvorn_${name}` in this.exports;
  }

  /** @param {bigint} at @param {number} length */
  bytesAt(at, length) {
    return new Uint8Array(this.exports.memory.buffer, Number(BigInt.asUintN(64, at)), length);
  }

  /** @param {number} length */
  take(length) {
    const at = this.exports.room(BigInt(length || 1));
    if (at === 0n) throw new Error("the module has no memory for it");
    this.held.push(at);
    return at;
  }

  /**
   * A pointer and a length of a text that lies in the module's memory.
   * @param {string | Uint8Array} text
   */
  lay(text) {
    const bytes = bytesOf(text);
    const at = this.take(bytes.length);
    this.bytesAt(at, bytes.length).set(bytes);
    return [at, BigInt(bytes.length)];
  }

  /**
   * The words that an input takes in a call.
   * @param {string | Uint8Array | boolean | (string | Uint8Array)[]} input
   */
  wordsOf(input) {
    if (typeof input === "boolean") return [Number(input)];
    if (!Array.isArray(input)) return this.lay(input);
    const pairs = input.map((text) => this.lay(text));
    const at = this.take(16 * pairs.length);
    const view = new DataView(this.exports.memory.buffer);
    pairs.flat().forEach((word, index) => view.setBigUint64(Number(at) + 8 * index, word, true));
    return [at, BigInt(pairs.length)];
  }

  /**
   * Calls a function of takvorn.h, named without `takvorn_`. It throws where the module stopped or has no memory, and is then
   * as new.
   * @param {string} name
   * @param {...(string | Uint8Array | boolean | (string | Uint8Array)[])} inputs in the order of the header, without `out` and `needed`
   */
  call(name, ...inputs) {
    try {
      return this.answer(name, inputs);
    } catch (fault) {
      this.held = [];
      this.renew();
      throw fault;
    }
  }

  /** @param {string} name @param {(string | Uint8Array | boolean | (string | Uint8Array)[])[]} inputs */
  answer(name, inputs) {
    const words = inputs.flatMap((input) => this.wordsOf(input));
    const needed = this.take(8);
    for (;;) {
      const room = this.room;
      const out = this.take(room);
      const status = this.exports[`takvorn_${name}`](...words, out, BigInt(room), needed);
      const length = Number(new DataView(this.exports.memory.buffer).getBigUint64(Number(needed), true));
      if (length > room) {
        this.room = length;
        continue;
      }
      const bytes = this.bytesAt(out, length).slice();
      this.held.splice(0).forEach((at) => this.exports.give_back(at));
      return { status, bytes, text: decoder.decode(bytes) };
    }
  }
}
