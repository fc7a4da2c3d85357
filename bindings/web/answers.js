// What `decode` writes about an object (docs/TOOLS.md), from the structs that the library fills.

const DRAFT = 0;
const PUBLISHED = 1;
const ABSENT = 0;
const TAKEN = 1;
const DISCARDED = 2;

// A reading by its command, as "strict-new-request": object, version, strictness; or null.
function readingOf(word) {
  const found = /^(strict-)?(new-)?(request|configuration)$/.exec(word);
  return found && { object: found[3], version: found[2] ? PUBLISHED : DRAFT, strict: found[1] ? 1 : 0 };
}

function read(library, reading, payload) {
  const object = library.room(reading.object);
  const refusal = library.call(reading.object + "_read", reading.version, reading.strict, payload, object);
  return { refusal, object };
}

const shown = (bytes) => `h'${hexOf(bytes)}'`;
const listed = (words) => `[${words.join(",")}]`;
const refused = (library, number) => `refused ${number} ${library.refusalName(number)}`;

function keyText(key) {
  const info = key.info_len ? "/" + shown(key.info.subarray(0, key.info_len)) : "";
  return `${key.identifier}/${key.usage}/${shown(key.value)}${info}`;
}

// The members of a list: CBOR integers, byte strings and null, with the shortest heads.
function membersOf(list) {
  const found = [];
  for (let at = 0; at < list.len; ) {
    const major = list.bytes[at] >> 5;
    const info = list.bytes[at] & 31;
    const width = info < 24 ? 0 : 1 << (info - 24);
    const argument = info < 24 ? BigInt(info) : bigEndian(list.bytes.slice(at + 1, at + 1 + width));
    at += 1 + width;
    if (major === 0) found.push(String(argument));
    else if (major === 1) found.push(String(-1n - argument));
    else if (major === 2) found.push(shown(list.bytes.subarray(at, (at += Number(argument)))));
  }
  return found;
}

function pairsText(words) {
  return listed(words.flatMap((word, i) => (i % 2 ? [] : [`${word}/${words[i + 1]}`])));
}

const entries = (faults) => faults.entry.slice(0, faults.count);

// The parameters of an object as [name, text] in decode's order. `o` is the view of its struct.
function parametersOf(reading, o) {
  const by = (report, text) => (report === TAKEN ? text() : report === ABSENT ? "absent" : reading.version ? "malformed" : "discarded");
  const octets = (x) => by(x.report, () => shown(x.bytes.subarray(0, x.len)));
  const passed = ["passed", String(bigEndian(o.passed))];
  if (reading.object === "request") {
    const front = [["role", String(o.role)], ["network", octets(o.network)]];
    if (reading.version === DRAFT) return [...front, passed];
    const unsupported = by(o.unsupported.report, () => pairsText(membersOf(o.unsupported)));
    return [...front, ["unsupported", unsupported], passed, ["reports", pairsText(entries(o.faults).flatMap((e) => [e[0], e[1]]))]];
  }
  const a = o.address;
  const front = [
    ["keys", by(o.keys_report, () => listed(o.keys.keys.slice(0, o.keys.count).map(keyText)))],
    ["address", by(a.report, () => shown(a.bytes))],
    ["lease", by(a.report, () => (a.leased ? String(bigEndian(a.lease)) : "none"))],
    ["jrc", octets(o.jrc)],
  ];
  if (reading.version === DRAFT) return [...front, ["network", octets(o.network)], ["prefix", octets(o.prefix)], passed];
  const report = { 2: o.keys_report, 3: a.report, 4: o.jrc.report, 6: o.blacklist.report, 7: o.rate.report };
  const bad = entries(o.came).filter((e) => report[e[1]] === DISCARDED);
  return [
    ...front,
    ["blacklist", by(o.blacklist.report, () => listed(membersOf(o.blacklist)))],
    ["rate", by(o.rate.report, () => String(bigEndian(o.rate.value)))],
    passed,
    ["reports", pairsText(bad.flatMap((e) => [e[0], e[1]]))],
  ];
}

// The line that decode writes.
function answerText(library, reading, { refusal, object }) {
  if (refusal) return refused(library, refusal);
  const words = parametersOf(reading, library.view(reading.object, object));
  return "accepted " + words.map(([name, text]) => `${name}=${text}`).join(" ");
}
