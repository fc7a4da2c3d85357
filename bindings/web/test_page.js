// Runs in the page in place of its own beginning (page.py OUT test_page.js) and writes its findings as the page's text.
const findings = [];
let passedChecks = 0;

function expect(good, what) {
  if (good) passedChecks++;
  else findings.push(what);
}

const texts = (id, ...words) => words.every((text) => byId(id).textContent.includes(text));
const units = (state) => [...document.querySelectorAll(`#picture .unit.${state}`)].map((unit) => Number(unit.dataset.unit));

function choose(id, value) {
  byId(id).value = value;
  byId(id).dispatchEvent(new Event("input"));
}

function checkPayloads() {
  const answer = (object, version, hex) => {
    choose("object", object);
    choose("version", version);
    choose("hex", hex);
  };
  answer("configuration", "0", "A1 02 80");
  expect(texts("answer", "Refused: 7 KEYS", "A payload's key set has no key"), "an empty key set");
  answer("configuration", "0", "A1 03 82 42 12 34 19 0E 10");
  expect(texts("answer", "Accepted", "h'1234'", "lease, seconds3600"), "a short address");
  answer("configuration", "1", "A3 03 81 41 12 06 80 04 41 00");
  expect(texts("answer", "Accepted", "blacklist=[] rate=absent passed=0 reports=[1/3,1/4]"), "a configuration of RFC 9031");
  answer("request", "0", "");
  expect(texts("answer", "Refused: 1 CUT"), "an empty payload");
  answer("request", "0", "A");
  expect(texts("answer", "Not hexadecimal"), "half a byte");
  expect(byId("examples").querySelectorAll("button").length === EXAMPLES.length, "a button for each example");
}

// After h rounds exactly the units within h hops are drawn as switched.
function checkRekeys(rekey) {
  for (const shape of Object.keys(SHAPES)) {
    for (const count of [2, 5, 9, 16]) {
      choose("count", String(count));
      choose("shape", shape);
      byId("next").click();
      expect(units("pending").length === count - 1 && units("new").length === 0, `${shape} ${count}: handed out`);
      const far = rekey.building.hops();
      for (let h = 0; h <= Math.max(...far); h++) {
        byId("next").click();
        expect(String(units("new")) === String(far.flatMap((d, i) => (d <= h ? [i] : []))), `${shape} ${count}: round ${h}`);
      }
    }
  }
}

function checkHands(rekey) {
  choose("links", "0-1 1-2 0-3");
  const press = (unit) => document.querySelector(`[data-unit="${unit}"]`).dispatchEvent(new KeyboardEvent("keydown", { key: "Enter" }));
  press(1);
  expect(String(units("asleep")) === "1" && document.activeElement.dataset.unit === "1", "Enter lets a unit sleep and keeps the focus");
  for (let i = 0; i < 5; i++) byId("next").click();
  expect(String(units("new")) === "0,3" && String(units("pending")) === "2", "a unit behind a sleeping one waits");
  const file = new DOMParser().parseFromString(pictureFile(), "image/svg+xml");
  expect(!file.querySelector("parsererror") && file.querySelectorAll(".unit").length === 4, "the saved picture");
  expect(!pictureFile().includes("var("), "its colours");
  press(1);
  expect(units("asleep").length === 0, "Enter wakes it again");
  choose("links", "0-0");
  expect(texts("said", "Links are pairs") && byId("next").disabled, "a link from a unit to itself");
  choose("links", "0-1");
  expect(!byId("next").disabled, "links that are right again");
}

async function checkPolicy() {
  const sent = await fetch("data:text/plain,x").then(() => true, () => false);
  expect(!sent, "nothing can be fetched");
  document.body.append(element("script", {}, "window.injected = true"));
  expect(window.injected === undefined, "no other script runs");
}

function checkWidth() {
  document.documentElement.style.width = "340px";
  expect(document.body.scrollWidth <= 340, "no wider than a phone: " + document.body.scrollWidth);
  document.documentElement.style.width = "";
}

begin().then(async ({ rekey }) => {
  checkPayloads();
  checkRekeys(rekey);
  checkHands(rekey);
  await checkPolicy();
  checkWidth();
  return "";
}).catch((error) => findings.push(String(error))).then(() => {
  document.body.textContent = `page: ${passedChecks} passed, ${findings.length} failed ${findings.join("; ")} END`;
});
