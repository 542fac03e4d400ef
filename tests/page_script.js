"use strict";
// What the script of a page makes of its data, without a browser. It reads JSON, a page's data and positions in it, and
// writes JSON: the document of each replica at each of them, and each operation's fates at the last one.

const { readFileSync } = require("node:fs");
const { join } = require("node:path");
const { runInNewContext } = require("node:vm");

// The parts of the script that draw nothing until they are asked to.
const PARTS = ["elements.js", "trees.js", "model.js", "fates.js", "documents.js"];
const ASKED = `
const [run] = runs, end = positions.at(-1);
const fatesOf = each => [each.id, names.map((name, r) => ({ ...fateOf(run, each, r, end), replica: name }))];
JSON.stringify({ documents: positions.map(at => names.map((_, r) => run.documentAt(r, at))),
  fates: run.inOrder.filter(({ made }) => made < end).map(fatesOf) });
`;

const { data, positions } = JSON.parse(readFileSync(0, "utf8"));
const textOfPart = name => readFileSync(join(__dirname, "..", "tools", "page_parts", name), "utf8");
const document = { getElementById: () => ({ textContent: JSON.stringify(data) }) };
console.log(runInNewContext(["'use strict';", ...PARTS.map(textOfPart), ASKED].join("\n"), { document, positions }));
