"use strict";
// For the tests in node: the scripts of the page, and the library that build.sh OUT has built.
const fs = require("fs");
const path = require("path");

const SCRIPTS = ["library.js", "answers.js", "building.js"];
const NAMES = ["Library", "hexOf", "bytesOf", "bigEndian", "readingOf", "read", "refused", "shown", "answerText", "Building", "SHAPES"];
const source = SCRIPTS.map((name) => fs.readFileSync(path.join(__dirname, name), "utf8")).join("\n");
const scripts = new Function(`${source}\nreturn { ${NAMES.join(", ")} };`)();

function libraryIn(folder) {
  const module = new WebAssembly.Module(fs.readFileSync(path.join(folder, "pothatch.wasm")));
  return new scripts.Library(module, JSON.parse(fs.readFileSync(path.join(folder, "interface.json"), "utf8")));
}

function finish(what, failed) {
  console.log(what);
  process.exit(failed ? 1 : 0);
}

module.exports = { ...scripts, libraryIn, finish };
