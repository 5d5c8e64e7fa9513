/** A text: a string is taken in UTF-8. */
export type Text = string | Uint8Array;

/** What a function answers: its status as in takvorn.h (0 done, 1 findings, 2 bad input, 4 no memory), and its text. */
export interface Answer {
  status: 0 | 1 | 2 | 4;
  bytes: Uint8Array;
  text: string;
}

export class Takvorn {
  /** Compiles takvorn.wasm, or takes the module that it is. */
  static load(source: WebAssembly.Module | BufferSource): Promise<Takvorn>;
  /** Whether the module has a function, named without `takvorn_`. */
  has(name: string): boolean;
  /**
   * Calls a function of takvorn.h, named without `takvorn_`: its inputs in the order of the header, without `out` and `needed`.
   * A list of texts is an array. It throws where the module stopped, or had no memory, and is then as new.
   */
  call(name: "show" | "show_svg" | "show_html" | "show_colored" | "show_json", records: Text): Answer;
  call(name: "show_pressed", records: Text, keys: Text, json: boolean): Answer;
  call(name: "check", layout: Text, records: Text, demos: boolean): Answer;
  call(name: "check_json" | "origins", layout: Text, records: Text): Answer;
  call(name: "talk", layouts: Text[], records: Text): Answer;
  call(name: "press", records: Text, keys: Text): Answer;
  call(name: "convert" | "draft", records: Text): Answer;
  call(name: "convert_back", lines: Text): Answer;
  call(name: "bind", layout: Text, answers: Text, text: boolean): Answer;
  call(name: "records", trace: Text, stream: boolean, answers: boolean): Answer;
  call(name: "map", source: Text, map: Text, layout: boolean, freekb: boolean, frset: boolean): Answer;
  call(name: "check_map", source: Text, map: Text, freekb: boolean, frset: boolean): Answer;
  call(name: string, ...inputs: (Text | boolean | Text[])[]): Answer;
}
