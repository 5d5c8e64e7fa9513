// Asks the page's module for what `mutated.py` drew, a line each on standard input: same.mjs WASM. The last line is
// 'N passed, M failed'.
import fs from "node:fs";
import readline from "node:readline";
import { Takvorn } from "../../web/takvorn.mjs";

const takvorn = await Takvorn.load(fs.readFileSync(process.argv[2]));
const read = (word) => {
  if (typeof word === "boolean") return word;
  return Array.isArray(word) ? word.map(read) : new Uint8Array(Buffer.from(word, "base64"));
};
let passed = 0;
let failed = 0;
for await (const line of readline.createInterface({ input: process.stdin })) {
  const [name, inputs, status, text] = JSON.parse(line);
  const answer = takvorn.call(name, ...inputs.map(read));
  if (answer.status === status && Buffer.from(answer.bytes).toString("base64") === text) passed += 1;
  else {
    failed += 1;
    console.log(`${name} answers otherwise: ${line.slice(0, 200)}`);
  }
}
console.log(`${passed} passed, ${failed} failed`);
process.exit(failed === 0 ? 0 : 1);
