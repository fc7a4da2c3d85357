"use strict";
// test_calls.js OUT CALLS: makes the calls that calls.py made on the native library, and compares refusals, slices and results.
const fs = require("fs");
const { libraryIn, bytesOf, hexOf, finish } = require("./load.js");

const [out, calls] = process.argv.slice(2);
const library = libraryIn(out);
const seen = new Map();
let differ = 0;
for (const line of fs.readFileSync(calls, "utf8").split("\n").filter((text) => text)) {
  const [name, before, refusal, after, results] = JSON.parse(line);
  const given = before.map((word) => (typeof word === "string" ? bytesOf(word) : word));
  const args = library.interfaces.functions[name].map(([kind]) => (kind === "result" ? {} : given.shift()));
  const got = library.call(name, ...args);
  const slices = args.filter((arg) => arg instanceof Uint8Array).map(hexOf);
  const values = args.filter((arg) => "value" in Object(arg)).map((arg) => String(arg.value));
  const same = got === refusal && String(slices) === String(after) && String(values) === String(results);
  if (!same && differ++ < 3) console.log(`${name}: ${got}, native ${refusal}`);
  const answers = seen.get(name) || new Set();
  seen.set(name, answers.add(refusal));
}
const missing = Object.keys(library.interfaces.functions).filter((name) => !seen.has(name));
if (missing.length) console.log(`never called: ${missing.join(" ")}`);
const kinds = [...seen.values()].reduce((n, answers) => n + answers.size, 0);
finish(`${seen.size} functions with ${kinds} answers as the native library gives them, ${differ} calls differ`, differ || missing.length);
