#!/usr/bin/env node
// Reads a trace with Chrome's own trace viewer, and prints what that found on each core:
// bench/trace/viewer.js TRACE.JSON [PAGE]
// PAGE is the viewer in one file, as Go ships it for `go tool trace` (Debian: golang-1.19-src). The viewer is made to run
// without a page; its drawing code is not used. Ends with status 1 if the viewer warns.
const fs = require("fs");
const vm = require("vm");

const [trace, page = "/usr/share/go-1.19/src/cmd/trace/static/trace_viewer_full.html"] = process.argv.slice(2);
const scripts = [...fs.readFileSync(page, "utf8").matchAll(/<script[^>]*>([^]*?)<\/script>/g)].map((match) => match[1]);
globalThis.global = globalThis;
// The reader of streams beside the viewer; a whole text is read without it.
globalThis.oboe = { drop: {} };
for (const part of scripts.join("\n").split(/(?='use strict';)/)) {
  try {
    vm.runInThisContext(part);
  } catch (error) {
    // It draws, for which there is no page.
  }
}

const model = new tr.Model();
new tr.importer.Import(model).importTraces([fs.readFileSync(trace, "utf8")]);
for (const run of Object.values(model.processes)) {
  console.log(run.name);
  for (const core of Object.values(run.threads)) {
    const events = core.sliceGroup.slices;
    const slices = events.filter((event) => event.category === "slice");
    const time = slices.reduce((sum, slice) => sum + slice.duration, 0);
    console.log(`${core.name}: ${slices.length} slices, ${events.length - slices.length} other events, at work ${(1000 * time).toFixed(0)} us`);
  }
}
for (const warning of model.importWarnings) console.log("warning:", warning.message);
process.exitCode = model.importWarnings.length ? 1 : 0;
