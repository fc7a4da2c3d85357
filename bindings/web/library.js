"use strict";
// The library as a WebAssembly module: copies in and out, no rule of its own. Numbers of 64 bits are BigInt.

const GUARD = 0xa5;
const GUARD_BYTES = 16;

function hexOf(bytes) {
  return Array.from(bytes, (b) => b.toString(16).padStart(2, "0")).join("");
}

// The bytes of hexadecimal digits with spaces anywhere, or null.
function bytesOf(text) {
  const digits = text.replace(/\s/g, "");
  if (digits.length % 2 || /[^0-9a-fA-F]/.test(digits)) return null;
  return Uint8Array.from(digits.match(/../g) || [], (pair) => parseInt(pair, 16));
}

function bigEndian(bytes) {
  return bytes.reduce((n, b) => n * 256n + BigInt(b), 0n);
}

class Library {
  // `interfaces` is what interface.py prints.
  constructor(module, interfaces) {
    this.exports = new WebAssembly.Instance(module).exports;
    this.interfaces = interfaces;
    this.base = this.exports.__heap_base.value;
  }

  // Places the slices of a call between guard bytes. Each entry: the argument, its offset, its length.
  placed(parameters, args) {
    const lent = [];
    let at = this.base + GUARD_BYTES;
    parameters.forEach(([kind, , bytes], i) => {
      if (kind === "number") return;
      if (kind === "result") at = (at + 7) & ~7;
      const length = kind === "result" ? bytes : args[i].length;
      lent.push([args[i], at, length]);
      at += length + GUARD_BYTES;
    });
    const missing = at - this.exports.memory.buffer.byteLength;
    if (missing > 0) this.exports.memory.grow(Math.ceil(missing / 65536));
    return [lent, at];
  }

  // Calls a function by its name in pothatch.h, without `pothatch_`. A slice is a Uint8Array, changed in place; a result is an object,
  // whose `value` is set. Returns the refusal's number, or 0. What was copied in is erased afterwards: it may hold keys.
  call(name, ...args) {
    const parameters = this.interfaces.functions[name];
    if (args.length !== parameters.length) throw new Error(`${name} has ${parameters.length} parameters`);
    const [lent, end] = this.placed(parameters, args);
    const memory = new Uint8Array(this.exports.memory.buffer);
    memory.fill(GUARD, this.base, end);
    for (const [arg, at] of lent) if (arg instanceof Uint8Array) memory.set(arg, at);
    const offsets = lent.map(([, at]) => at);
    const words = parameters.flatMap(([kind, , bytes], i) => {
      if (kind === "number") return [bytes === 8 ? BigInt(args[i]) : Number(args[i])];
      const at = offsets.shift();
      return kind === "result" ? [at] : [at, BigInt(args[i].length)];
    });
    const number = this.exports["pothatch_" + name](...words) >>> 0;
    this.takeBack(name, lent, end, memory);
    memory.fill(0, this.base, end);
    return number;
  }

  takeBack(name, lent, end, memory) {
    let outside = this.base;
    for (const [arg, at, length] of [...lent, [null, end, 0]]) {
      if (!memory.subarray(outside, at).every((b) => b === GUARD)) throw new Error(`${name} wrote outside what it was lent`);
      outside = at + length;
      if (arg instanceof Uint8Array) arg.set(memory.subarray(at, outside));
      else if (arg) arg.value = bigEndian(memory.slice(at, outside).reverse());
    }
  }

  room(struct) {
    return new Uint8Array(this.interfaces.sizes[struct]);
  }

  // The members of a struct by name: a byte as a number, several as bytes, structs as such objects, and arrays of these.
  view(struct, bytes) {
    const one = (inner, part) => (inner ? this.view(inner, part) : part.length === 1 ? part[0] : part);
    const members = {};
    for (const [name, at, size, inner, count] of this.interfaces.structs[struct]) {
      const part = (i) => one(inner, bytes.subarray(at + i * size, at + (i + 1) * size));
      members[name] = count ? Array.from({ length: count }, (_, i) => part(i)) : part(0);
    }
    return members;
  }

  refusalName(number) {
    const name = new Uint8Array(8);
    if (this.call("refusal_name", number, name)) throw new Error(`no refusal has the number ${number}`);
    return String.fromCharCode(...name.filter((b) => b));
  }
}
