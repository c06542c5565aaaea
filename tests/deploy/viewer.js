// Tries functions of the viewer, which test_viewer.py calls: it prints what they give as JSON.
"use strict";

const fs = require("fs");
const path = require("path");
const vm = require("vm");

const VIEWER = path.join(__dirname, "..", "..", "deploy", "viewer");
// the page, as far as these functions ask it
const context = vm.createContext({ AbortController, URLSearchParams, document: { getElementById: () => ({ value: "image/jpeg" }) } });
for (const name of ["asking.js", "place.js", "layers.js", "clicks.js"]) {
    vm.runInContext(fs.readFileSync(path.join(VIEWER, name), "utf8"), context, { filename: name });
}
const tried = fs.readFileSync(0, "utf8").split("\n").filter(Boolean);
console.log(JSON.stringify(tried.map((expression) => vm.runInContext(expression, context) ?? null)));
