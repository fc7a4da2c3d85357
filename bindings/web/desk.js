// The page: fields in, answers and a picture out.

const SVG = "http://www.w3.org/2000/svg";
const EXAMPLE_LINKS = "0-1 0-2 0-3 1-4 1-5 2-6 3-7";
const TURN_TIME = 450; // ms
const RADIUS = 18;
const EXAMPLES = [
  ["a short address", "configuration", 0, "A1 03 82 42 12 34 19 0E 10"],
  ["two keys", "configuration", 0, "A1 02 85 01 50 000102030405060708090A0B0C0D0E0F 02 06 50 101112131415161718191A1B1C1D1E1F"],
  ["no key", "configuration", 0, "A1 02 80"],
  ["cut short", "configuration", 0, "A1 03 82 42 12"],
  ["join request", "request", 0, "A1 05 42 CA FE"],
  ["RFC 9031", "configuration", 1, "A3 03 81 41 12 06 80 04 41 00"],
];
const PARAMETERS = {
  role: "role",
  network: "network identifier",
  unsupported: "unsupported parameters",
  keys: "link-layer keys",
  address: "short address",
  lease: "lease",
  jrc: "JRC address",
  prefix: "prefix",
  blacklist: "blacklist",
  rate: "join rate",
  passed: "labels passed over",
  reports: "error reports",
};
const TURNS = { switched: "switches to it", kept: "has it already", failed: "has another key of that number" };
const STATES = { old: "old key set", pending: "new key set pending", new: "new key set" };

const byId = (id) => document.getElementById(id);

function element(tag, attributes, ...children) {
  const made = /^(svg|g|circle|line|text|title)$/.test(tag) ? document.createElementNS(SVG, tag) : document.createElement(tag);
  for (const [name, value] of Object.entries(attributes)) made.setAttribute(name, value);
  made.append(...children);
  return made;
}

// ---- payloads
function showAnswer(library) {
  const reading = { object: byId("object").value, version: Number(byId("version").value), strict: byId("strict").checked ? 1 : 0 };
  const payload = bytesOf(byId("hex").value);
  const box = byId("answer");
  box.textContent = "";
  const verdict = (kind, text) => box.append(element("p", { class: "verdict " + kind }, text));
  if (!payload) {
    verdict("bad", "Not hexadecimal");
    box.append(element("p", {}, "An even number of the digits 0 to 9 and A to F is expected."));
    return;
  }
  const answer = read(library, reading, payload);
  if (answer.refusal) {
    verdict("bad", `Refused: ${answer.refusal} ${library.refusalName(answer.refusal)}`);
    box.append(element("p", {}, sentence(REFUSALS[answer.refusal])));
  } else {
    verdict("good", "Accepted");
    const rows = parametersOf(reading, library.view(reading.object, answer.object));
    box.append(element("table", {}, ...rows.map(([name, text]) => parameterRow(reading, name, text))));
  }
  const line = element("code", { class: "decode" }, answerText(library, reading, answer));
  box.append(element("p", { class: "note" }, "As decode writes it: ", line));
}

function parameterRow(reading, name, text) {
  const unit = name === "lease" ? (reading.version ? ", hours" : ", seconds") : name === "rate" ? ", bytes a second" : "";
  return element("tr", {}, element("th", { scope: "row" }, PARAMETERS[name] + unit), element("td", {}, text));
}

const sentence = (words) => words[0].toUpperCase() + words.slice(1) + ".";

function addExamples(show) {
  for (const [name, object, version, hex] of EXAMPLES) {
    const button = element("button", {}, name);
    button.addEventListener("click", () => {
      byId("object").value = object;
      byId("version").value = String(version);
      byId("hex").value = hex;
      show();
    });
    byId("examples").append(button);
  }
}

// ---- the rekey
class Rekey {
  constructor(library) {
    Object.assign(this, { library, asleep: new Set(), timer: 0 });
    chooseShape(this);
  }

  begin() {
    this.stop();
    const links = linksOf(byId("links").value);
    this.building = links && new Building(this.library, links, this.asleep);
    Object.assign(this, { step: 0, round: 0, waiting: [], last: null });
    if (!links) return this.say("Links are pairs of different numbers under 16, as 0-1.");
    this.asleep = new Set([...this.asleep].filter((i) => i < this.building.count));
    this.say("All units have joined and send under the old key set.");
  }

  // Hand out, accept, then rounds.
  next() {
    const b = this.building;
    this.last = null;
    if (this.step === 0) {
      b.handOut();
      this.step = 1;
      return this.say("The new key set is handed out. All still send under the old one.");
    }
    if (this.step === 1) {
      b.accept();
      this.step = 2;
      return this.say("The border router accepts the new key set and sends under it.");
    }
    if (!this.waiting.length) this.beginRound();
    while (this.waiting.length) b.turn(...this.waiting.shift());
    this.say(`After round ${this.round}: ${this.switched()}`);
  }

  turn() {
    if (this.step < 2) return this.next();
    if (!this.waiting.length) this.beginRound();
    const { a, b, key, answer } = (this.last = this.building.turn(...this.waiting.shift()));
    const sends = key ? `unit ${a} sends under key ${key}, unit ${b} ` : `unit ${a} is to send, `;
    this.say(`Round ${this.round}: ${sends}${TURNS[answer] || answer}. ${this.switched()}`);
  }

  beginRound() {
    this.round++;
    this.waiting = this.building.turns();
  }

  switched() {
    const count = this.building.states().filter((state) => state === "new").length;
    return `${count} of ${this.building.count} units send under the new key set.`;
  }

  play() {
    if (this.timer) return this.stop();
    byId("play").textContent = "Pause";
    this.timer = setInterval(() => (this.finished() ? this.stop() : this.turn()), TURN_TIME);
  }

  finished() {
    const far = this.building.hops();
    return this.step === 2 && this.building.states().every((state, i) => state === "new" || far[i] === Infinity);
  }

  stop() {
    clearInterval(this.timer);
    this.timer = 0;
    byId("play").textContent = "Play";
  }

  toggle(i) {
    if (i === 0) return;
    if (!this.asleep.delete(i)) this.asleep.add(i);
    this.begin();
    byId("picture").querySelector(`[data-unit="${i}"]`).focus();
  }

  say(words) {
    byId("said").textContent = words;
    for (const id of ["next", "turn", "play", "save"]) byId(id).disabled = !this.building;
    byId("picture").textContent = "";
    if (this.building) byId("picture").append(drawing(this.building, this.last, (i) => this.toggle(i)));
  }
}

// Rows by hops, as if all were awake; units without a path are last.
function placesOf(building) {
  const far = new Building(building.library, building.links).hops();
  const deepest = Math.max(...far.filter((h) => h < Infinity));
  const rows = [];
  far.forEach((h, i) => (rows[Math.min(h, deepest + 1)] ||= []).push(i));
  const width = Math.max(440, 64 * Math.max(...rows.map((row) => row.length)));
  const places = [];
  rows.forEach((row, h) => row.forEach((i, n) => (places[i] = [(width * (n + 0.5)) / row.length, 40 + 72 * h])));
  return { places, width, height: 72 * rows.length + 60 };
}

function unitShape(x, y, radius, state, name) {
  const shape = element("g", { class: state });
  if (state.includes("pending")) shape.append(element("circle", { class: "ring", cx: x, cy: y, r: radius + 5 }));
  shape.append(element("circle", { class: "core", cx: x, cy: y, r: radius }), element("text", { x, y: y + 5 }, name));
  return shape;
}

function drawing(building, last, toggle) {
  const { places, width, height } = placesOf(building);
  const svg = element("svg", { xmlns: SVG, viewBox: `0 0 ${width} ${height}`, role: "group", "aria-label": "Units and radio links" });
  for (const [a, b] of building.links) svg.append(linkLine(places, a, b, "link"));
  if (last) svg.append(linkLine(places, last.a, last.b, /switched|kept/.test(last.answer) ? "heard" : "unheard"));
  building.states().forEach((state, i) => {
    const asleep = building.asleep.has(i);
    const unit = unitShape(...places[i], RADIUS, `unit ${state}${asleep ? " asleep" : ""}`, i === 0 ? "BR" : String(i));
    const words = `${i === 0 ? "border router" : "unit " + i}: ${asleep ? "asleep, " : ""}${STATES[state]}`;
    unit.prepend(element("title", {}, words));
    unit.setAttribute("data-unit", i);
    if (i > 0) makeButton(unit, words, () => toggle(i));
    svg.append(unit);
  });
  svg.append(legend(width, height));
  return svg;
}

function linkLine(places, a, b, kind) {
  return element("line", { class: kind, x1: places[a][0], y1: places[a][1], x2: places[b][0], y2: places[b][1] });
}

function makeButton(unit, words, act) {
  for (const [name, value] of [["role", "button"], ["tabindex", "0"], ["aria-label", words]]) unit.setAttribute(name, value);
  unit.addEventListener("click", act);
  unit.addEventListener("keydown", (event) => {
    if (event.key !== "Enter" && event.key !== " ") return;
    event.preventDefault();
    act();
  });
}

function legend(width, height) {
  const group = element("g", { class: "legend" });
  [["old", "old set"], ["pending", "new set pending"], ["new", "new set"], ["old asleep", "asleep"]].forEach(([state, words], n) => {
    const x = width / 2 - 204 + [0, 98, 252, 346][n];
    group.append(unitShape(x, height - 30, RADIUS / 2, state, ""), element("text", { x: x + 22, y: height - 25 }, words));
  });
  return group;
}

// The picture as a file of its own, with the colours that are on the screen.
function pictureFile() {
  const copy = byId("picture").querySelector("svg").cloneNode(true);
  const colours = getComputedStyle(document.documentElement);
  const style = STYLE.replace(/var\((--[\w-]+)\)/g, (_, name) => colours.getPropertyValue(name).trim());
  const rules = style.split("}").filter((rule) => /^\s*svg /.test(rule)).map((rule) => rule.trim().replace(/svg /g, "") + " }");
  const ground = `<rect width="100%" height="100%" fill="${colours.getPropertyValue("--ground").trim()}"/>`;
  const [head, ...rest] = new XMLSerializer().serializeToString(copy).split(">");
  return `${head}><style>${rules.join("\n")}</style>${ground}${rest.join(">")}\n`;
}

function save() {
  const link = element("a", { href: URL.createObjectURL(new Blob([pictureFile()], { type: "image/svg+xml" })), download: "rekey.svg" });
  link.click();
  setTimeout(() => URL.revokeObjectURL(link.href), 1000);
}

function chooseShape(rekey) {
  const shape = byId("shape").value;
  const count = Math.min(16, Math.max(2, Number(byId("count").value) || 2));
  byId("count").disabled = shape === "example";
  byId("links").value = shape === "example" ? EXAMPLE_LINKS : SHAPES[shape](count).map((link) => link.join("-")).join(" ");
  rekey.begin();
}

async function begin() {
  const bytes = Uint8Array.from(atob(MODULE), (letter) => letter.charCodeAt(0));
  const library = new Library(await WebAssembly.compile(bytes), INTERFACE);
  byId("module").textContent = `${bytes.length.toLocaleString("en")} bytes, layout ${library.call("layout")}`;
  const show = () => showAnswer(library);
  for (const id of ["object", "version", "strict", "hex"]) byId(id).addEventListener("input", show);
  addExamples(show);
  byId("examples").querySelector("button").click();
  const rekey = new Rekey(library);
  for (const id of ["shape", "count"]) byId(id).addEventListener("input", () => chooseShape(rekey));
  byId("links").addEventListener("input", () => rekey.begin());
  byId("next").addEventListener("click", () => rekey.stop() || rekey.next());
  byId("turn").addEventListener("click", () => rekey.stop() || rekey.turn());
  byId("play").addEventListener("click", () => rekey.play());
  byId("again").addEventListener("click", () => rekey.begin());
  byId("save").addEventListener("click", save);
  return { library, rekey };
}
