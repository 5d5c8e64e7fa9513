// Asks the page's module for the golden cases of the commands that the library has: cases.mjs WASM CASES PROGRAM. The last line is
// 'N passed, M failed'.
import { execFileSync } from "node:child_process";
import fs from "node:fs";
import path from "node:path";
import { Takvorn } from "../../web/takvorn.mjs";

const [wasm, cases, program] = process.argv.slice(2);
const takvorn = await Takvorn.load(fs.readFileSync(wasm));
const isLayout = (word) => word.endsWith(".toml");

/** The call of a case's words, as the name of a function and its inputs; none where the library has no such. */
function callOf(folder, words, read, input) {
  const layouts = words.filter(isLayout);
  const map = callOfMap(words, read);
  if (map) return map;
  const form = words.map((word) => (isLayout(word) ? "LAYOUT" : word === "keys" ? "KEYS" : word)).join(" ");
  const calls = {
    "": () => ["show", input()],
    show: () => ["show", input()],
    "show --format svg": () => ["show_svg", input()],
    "show --format html": () => ["show_html", input()],
    "show --format json": () => ["show_json", input()],
    "show --color always": () => ["show_colored", input()],
    "check LAYOUT": () => ["check", read(layouts[0]), input(), false],
    "check LAYOUT --demo": () => ["check", read(layouts[0]), input(), true],
    "check --demo LAYOUT": () => ["check", read(layouts[0]), input(), true],
    "check LAYOUT --format json": () => ["check_json", read(layouts[0]), input()],
    "check --format json LAYOUT": () => ["check_json", read(layouts[0]), input()],
    "press KEYS": () => ["press", input(), read("keys")],
    convert: () => ["convert", input()],
    "convert --back": () => ["convert_back", input()],
    draft: () => ["draft", input()],
    "bind LAYOUT": () => ["bind", read(layouts[0]), input(), false],
    "bind LAYOUT --text": () => ["bind", read(layouts[0]), input(), true],
    "bind --text LAYOUT": () => ["bind", read(layouts[0]), input(), true],
    records: () => ["records", input(), false, false],
    "records --from trace": () => ["records", input(), false, false],
    "records --answers": () => ["records", input(), false, true],
    "records --from stream": () => ["records", input(), true, false],
    "records --from stream --answers": () => ["records", input(), true, true],
    "records --answers --from stream": () => ["records", input(), true, true],
  };
  if (words[0] === "talk" && words.slice(1).every(isLayout) && layouts.length > 0) return ["talk", layouts.map(read), input()];
  // Without a word the program shows; a case of another command then stands for a fault of the command line.
  return form in calls ? calls[form]() : null;
}

/** The call of `map FILE` or `check --map FILE`, with a name and flags; none where the words are others. */
function callOfMap(words, read) {
  const file = words.find((word) => word.endsWith(".bms"));
  const rest = words.filter((word) => word !== file);
  if (!file || rest.includes("--format") || !(rest[0] === "map" || (rest[0] === "check" && rest[1] === "--map"))) return null;
  const options = rest.slice(rest[0] === "map" ? 1 : 2);
  const at = options.findIndex((word) => word === "--map" || word === "--map-name");
  const name = at < 0 ? "" : options[at + 1];
  const flags = ["--freekb", "--frset"].map((flag) => options.includes(flag));
  return rest[0] === "map" ? ["map", read(file), name, options.includes("--layout"), ...flags] : ["check_map", read(file), name, ...flags];
}

function runCase(folder) {
  const has = (name) => fs.existsSync(path.join(folder, name));
  const read = (name) => fs.readFileSync(path.join(folder, name));
  const input = () => {
    if (!has("make-stdin")) return has("stdin") ? read("stdin") : new Uint8Array();
    return execFileSync("sh", ["./make-stdin"], { cwd: folder, maxBuffer: 1 << 28, env: { ...process.env, PROGRAM: program } });
  };
  const words = has("args") ? read("args").toString().split("\n").filter((word) => word !== "") : [];
  const files = words.filter((word) => isLayout(word) || word.endsWith(".bms"));
  if (files.some((name) => !has(name)) || (words.includes("keys") && !has("keys"))) return null;
  const call = callOf(folder, words, read, input);
  if (!call) return null;
  const answer = takvorn.call(...call);
  const status = has("status") ? Number(read("status")) : 0;
  // The line in place of a picture stands in a file of its own, as the program says on standard error why there is none.
  const printed = has("answer") ? "answer" : "stdout";
  const text = has(printed) ? read(printed) : Buffer.alloc(0);
  return answer.status === status && Buffer.compare(Buffer.from(answer.bytes), text) === 0;
}

let passed = 0;
let failed = 0;
for (const command of fs.readdirSync(cases).sort()) {
  for (const name of fs.readdirSync(path.join(cases, command)).sort()) {
    const agrees = runCase(path.join(cases, command, name));
    if (agrees === null) continue;
    if (agrees) passed += 1;
    else {
      failed += 1;
      console.log(`${command}/${name}: the module answers otherwise`);
    }
  }
}
console.log(`${passed} passed, ${failed} failed`);
process.exit(failed === 0 ? 0 : 1);
