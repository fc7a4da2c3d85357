"use strict";
// test_decode.js OUT STDIN STDOUT: decode's recorded lines, answered by the library that build.sh OUT has built. Lines that decode judges
// by itself (errors, `head`) are passed over.
const fs = require("fs");
const { libraryIn, bytesOf, bigEndian, readingOf, read, refused, shown, answerText, finish } = require("./load.js");

const STORE = 512;
const PAYLOAD = 256;

class Decode {
  constructor(library) {
    Object.assign(this, { library, store: new Uint8Array(STORE), lent: PAYLOAD, serial: library.room("serial") });
    this.reset();
  }

  reset() {
    this.library.call("serial_reset", this.serial);
    return "reset";
  }

  // The object written again, after a word.
  written(word, reading, object) {
    const dst = new Uint8Array(PAYLOAD);
    const length = {};
    const refusal = this.library.call(reading.object + "_write", reading.version, object, dst, length);
    return refusal ? refused(this.library, refusal) : `${word} ${shown(dst.subarray(0, Number(length.value)))}`;
  }

  rewrite(reading, payload) {
    const { refusal, object } = read(this.library, reading, payload);
    return refusal ? refused(this.library, refusal) : this.written("wrote", reading, object);
  }

  merge(payloads) {
    const reading = readingOf("configuration");
    const parts = payloads.map((payload) => read(this.library, reading, payload));
    const bad = parts.findIndex((part) => part.refusal);
    if (bad >= 0) return `${["first", "second"][bad]} ${refused(this.library, parts[bad].refusal)}`;
    const out = this.library.room("configuration");
    const refusal = this.library.call("configuration_merge", parts[0].object, parts[1].object, out);
    return refusal ? refused(this.library, refusal) : this.written("merged", reading, out);
  }

  part(payload) {
    const refusal = this.library.call("serial_part", this.serial, this.store.subarray(0, this.lent), payload);
    return refusal ? refused(this.library, refusal) : `held ${bigEndian(this.library.view("serial", this.serial).arrived)}`;
  }

  end(reading) {
    const object = this.library.room(reading.object);
    const store = this.store.slice(0, this.lent);
    const refusal = this.library.call("serial_end_" + reading.object, this.serial, store, reading.version, reading.strict, object);
    return answerText(this.library, reading, { refusal, object });
  }

  // The answer to a line of words, or null.
  answer(name, words) {
    const reading = readingOf(name);
    const payload = bytesOf((name === "rewrite" ? words.slice(1) : words).join(""));
    if (reading) return payload && answerText(this.library, reading, read(this.library, reading, payload));
    if (name === "rewrite") return payload && readingOf(words[0]) && this.rewrite(readingOf(words[0]), payload);
    if (name === "merge") return this.merge(words.join(" ").split("+").map(bytesOf));
    if (name === "part") return payload && this.part(payload);
    if (name === "end") return this.end(readingOf(words[0]));
    if (name === "reset") return this.reset();
    if (name === "store") return `lent ${(this.lent = Number(words[0]))}`;
    return null;
  }
}

const [out, stdin, stdout] = process.argv.slice(2);
const lines = fs.readFileSync(stdin, "latin1").split("\n");
const answers = fs.readFileSync(stdout, "latin1").split("\n");
const decode = new Decode(libraryIn(out));
let [at, agree, differ, over] = [0, 0, 0, 0];
for (const line of lines) {
  const [name, ...words] = line.replace(/\r$/, "").split(" ").filter((word) => word);
  if (!name || name[0] === "#") continue;
  const expected = answers[at++];
  const got = expected.startsWith("error ") ? null : decode.answer(name, words);
  if (got === null) over++;
  else if (got === expected) agree++;
  else if (differ++ < 3) console.log(`${line.slice(0, 200)}\n  got      ${got}\n  expected ${expected}`);
}
finish(`${agree} recorded answers agree, ${differ} differ, ${over} passed over`, differ || !agree);
