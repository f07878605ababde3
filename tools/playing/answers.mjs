// Answers cases by a file of WebAssembly, in Node. Standard input is a JSON text: the path of the file, and the cases, each with its words, the
// path of its input and a folder of files or null. Standard output is one: the status of each, and what it wrote, in base64.
import fs from "node:fs";
import path from "node:path";
import { answer } from "../../docs/playground/engine.mjs";

// The files below a folder by their paths, and its folders, whose value is null.
function filesOf(folder, below = "") {
  const found = {};
  for (const entry of fs.readdirSync(path.join(folder, below), { withFileTypes: true })) {
    const name = path.posix.join(below, entry.name);
    found[name] = entry.isDirectory() ? null : new Uint8Array(fs.readFileSync(path.join(folder, name)));
    if (entry.isDirectory()) Object.assign(found, filesOf(folder, name));
  }
  return found;
}

const coded = (bytes) => Buffer.from(bytes).toString("base64");
const { wasm, cases } = JSON.parse(fs.readFileSync(0, "utf8"));
const program = await WebAssembly.compile(fs.readFileSync(wasm));
const found = [];
for (const { words, input, folder } of cases) {
  const files = folder ? filesOf(folder) : {};
  const { status, output, errors } = await answer(program, words, new Uint8Array(fs.readFileSync(input)), files);
  found.push({ status, output: coded(output), errors: coded(errors) });
}
process.stdout.write(JSON.stringify(found));
