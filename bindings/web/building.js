// A building: nodes that the library's calls change, the radio links between them, and the turns of a rekey. Node 0 is the border router.

const DRAFT_VERSION = 0;
const BEACON = 0;
const OLD_KEY = 1;
const NEW_KEY = 2;
const SWITCHED = 2n;
const FIRST_TIMEOUT = 10000n;
const NETWORK = Uint8Array.of(0xca, 0xfe);
const MOST_NODES = 16;

// A configuration with one key: its identifier, and a value that begins with it.
function keySet(identifier) {
  return Uint8Array.of(0xa1, 0x02, 0x82, identifier, 0x50, ...Array.from({ length: 16 }, (_, i) => 16 * identifier + i));
}

// Links from text such as "0-1 0-2": pairs of different numbers, no link twice. Returns null for other text.
function linksOf(text) {
  const seen = new Set();
  const links = [];
  for (const word of text.split(/[\s,]+/).filter((w) => w)) {
    const found = /^(\d{1,2})-(\d{1,2})$/.exec(word);
    if (!found) return null;
    const [a, b] = [Number(found[1]), Number(found[2])].sort((x, y) => x - y);
    if (a === b || b >= MOST_NODES) return null;
    if (!seen.has(`${a}-${b}`)) links.push([a, b]);
    seen.add(`${a}-${b}`);
  }
  return links.length ? links : null;
}

class Building {
  // `asleep` are the units that are not handed the new key set.
  constructor(library, links, asleep = []) {
    Object.assign(this, { library, links, asleep: new Set(asleep), clock: 0n });
    this.count = Math.max(...links.flat()) + 1;
    this.nodes = Array.from({ length: this.count }, (_, i) => this.joined(i));
    for (let h = 0; h < this.count; h++) this.round();
  }

  must(name, ...args) {
    const refusal = this.library.call(name, ...args);
    if (refusal) throw new Error(`${name}: refused ${refusal} ${this.library.refusalName(refusal)}`);
  }

  // A node that has joined with the old key set.
  joined(i) {
    const node = this.library.room("node");
    this.must("node_make", DRAFT_VERSION, i === 0 ? 1 : 0, 1, NETWORK, node);
    this.must("node_start", node, this.clock, FIRST_TIMEOUT, new Uint8Array(38), {});
    this.must("node_answer", node, this.clock, keySet(OLD_KEY), this.library.room("reports"));
    return node;
  }

  update(i) {
    this.clock += 1n;
    this.must("node_update", this.nodes[i], this.clock, keySet(NEW_KEY), this.library.room("reports"));
  }

  // The new key set goes to every unit that is awake but the border router.
  handOut() {
    for (let i = 1; i < this.count; i++) if (!this.asleep.has(i)) this.update(i);
  }

  accept() {
    this.update(0);
  }

  // One turn: a sends a frame, b receives it; where both have the same key the radio reports it verified. `answer` is "switched", "kept",
  // "failed", or who has no key.
  turn(a, b) {
    const sent = this.library.room("frame_key");
    const held = this.library.room("frame_key");
    const refusal = this.library.call("node_send", this.nodes[a], BEACON, sent);
    if (refusal) return { a, b, answer: `has no key to send with (${this.library.refusalName(refusal)})` };
    const key = this.library.view("frame_key", sent).key.identifier;
    const refusalThere = this.library.call("node_receive", this.nodes[b], BEACON, key, held);
    if (refusalThere) return { a, b, key, answer: `has no such key (${this.library.refusalName(refusalThere)})` };
    const keyOf = (frame) => hexOf(frame.subarray(2, 2 + this.library.interfaces.sizes.key));
    if (keyOf(sent) !== keyOf(held)) return { a, b, key, answer: "failed" };
    const change = {};
    this.must("node_verified", this.nodes[b], BEACON, key, change);
    return { a, b, key, answer: change.value === SWITCHED ? "switched" : "kept" };
  }

  // Hops from the border router along units that are awake.
  hops() {
    const far = Array(this.count).fill(Infinity);
    far[0] = 0;
    for (let h = 0; h < this.count; h++)
      for (const [x, y] of this.links)
        for (const [a, b] of [[x, y], [y, x]])
          if (far[a] === h && far[b] > h + 1 && !this.asleep.has(b)) far[b] = h + 1;
    return far;
  }

  // The turns of a round in the worst order: far senders first.
  turns() {
    const far = this.hops();
    const rank = (i) => Math.min(far[i], this.count);
    const pairs = this.links.flatMap(([x, y]) => [[x, y], [y, x]]);
    return pairs.sort((p, q) => rank(q[0]) - rank(p[0]) || p[0] - q[0] || p[1] - q[1]);
  }

  round() {
    return this.turns().map(([a, b]) => this.turn(a, b));
  }

  // "old", "pending" (the new set beside the old one) or "new".
  state(i) {
    const node = this.library.view("node", this.nodes[i]);
    const has = (counted, key) => counted.set.count === 1 && counted.set.keys[0].identifier === key;
    if (has(node.active, NEW_KEY)) return "new";
    return has(node.pending, NEW_KEY) ? "pending" : "old";
  }

  states() {
    return this.nodes.map((_, i) => this.state(i));
  }
}

const SHAPES = {
  line: (n) => Array.from({ length: n - 1 }, (_, i) => [i, i + 1]),
  star: (n) => Array.from({ length: n - 1 }, (_, i) => [0, i + 1]),
  ring: (n) => [...SHAPES.line(n), ...(n > 2 ? [[0, n - 1]] : [])],
  grid: (n) => [...SHAPES.line(n).filter(([i]) => i % 4 !== 3), ...Array.from({ length: Math.max(n - 4, 0) }, (_, i) => [i, i + 4])],
};
