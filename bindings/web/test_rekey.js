"use strict";
// test_rekey.js OUT: rekeys of lines, stars, rings and grids of 2 to 16 units, some asleep. Before the border router accepts the new key
// set nobody sends under it; after h rounds exactly the units within h hops do.
const { libraryIn, Building, SHAPES, finish } = require("./load.js");

const library = libraryIn(process.argv[2]);
let [rekeys, wrong] = [0, 0];

function check(building, isNew, isPending) {
  building.states().forEach((state, i) => {
    const expected = isNew(i) ? "new" : isPending(i) ? "pending" : "old";
    if (state !== expected && wrong++ < 3) console.log(`unit ${i} is ${state}, not ${expected}: ${building.links.join(" ")}`);
  });
}

function rekey(links, asleep) {
  const building = new Building(library, links, asleep);
  const far = building.hops();
  const handed = (i) => i > 0 && !building.asleep.has(i);
  building.handOut();
  building.round();
  check(building, () => false, handed);
  building.accept();
  for (let h = 0; h <= building.count; h++) {
    if (h) building.round();
    check(building, (i) => far[i] <= h, handed);
  }
  rekeys++;
}

for (let n = 2; n <= 16; n++) {
  for (const shape of Object.values(SHAPES)) {
    rekey(shape(n), []);
    rekey(shape(n), [n - 1, n >> 1].filter((i) => i > 0));
  }
}
finish(`${rekeys} rekeys, ${wrong} states wrong`, wrong);
