// Reads and judges the resources of a file by ajv.
//
// usage: node by_ajv.js SCHEMA LINES
//
// It does so twice, and prints the processor's seconds of the second time, and how many are right.
"use strict";

const fs = require("fs");
const Ajv = require("ajv");

function countRight(check, path) {
  let right = 0;
  for (const line of fs.readFileSync(path, "utf8").split("\n")) {
    if (line && check(JSON.parse(line))) {
      right += 1;
    }
  }
  return right;
}

const [schema, lines] = process.argv.slice(2);
const check = new Ajv().compile(JSON.parse(fs.readFileSync(schema, "utf8")));
countRight(check, lines);
const begun = process.cpuUsage();
const right = countRight(check, lines);
const used = process.cpuUsage(begun);
console.log((used.user + used.system) / 1e6, right);
