// Runs tests in the form of test262 on node: node --expose-gc runner.mjs [--harness FOLDER] [--fault NAME] PLACE ..
// A PLACE is a file, or a folder, of which all tests are run.
// FOLDER of --harness is test262's own `harness`; without it the stand-ins of harness/stand-in take its place. A file that
// a test includes is looked for there, and then in harness/. With a fault, its script of faults/ runs before each test.
// Each test runs as a sloppy script and as a strict one. Prints each that fails, and `N passed, M failed` last.
import { existsSync, readFileSync, readdirSync, statSync } from "node:fs";
import { fileURLToPath } from "node:url";
import { createContext, runInContext } from "node:vm";

const LONGEST = 20000;
const words = process.argv.slice(2);
const beside = (path) => fileURLToPath(new URL(path, import.meta.url));
// The word behind an option, which is taken out of the words.
function option(name) {
  const at = words.indexOf(name);
  return at < 0 ? undefined : words.splice(at, 2)[1];
}
const harness = option("--harness"), fault = option("--fault");
const places = [harness ?? beside("harness/stand-in"), beside("harness")];
const always = harness ? ["assert.js", "sta.js"] : ["assert.js"];

function included(name) {
  const place = places.find((place) => existsSync(`${place}/${name}`));
  if (place === undefined) throw new Error(`no harness file ${name}`);
  return readFileSync(`${place}/${name}`, "utf8");
}
// The names in a line of the front matter, as `includes: [a.js, b.js]`.
const listed = (text, key) => text.match(new RegExp(`^${key}: \\[(.*)\\]$`, "m"))?.[1].split(", ") ?? [];

// What a test ends with: nothing, or its error.
function ended(text, filename) {
  return new Promise((end) => {
    const late = setTimeout(() => end(new Error("no $DONE")), LONGEST);
    const $DONE = (error) => {
      clearTimeout(late);
      end(error);
    };
    const context = createContext({ $DONE, setTimeout, process, gc: () => gc() });
    const run = (script, filename) => runInContext(script, context, { filename });
    try {
      run("globalThis.$262 = { gc: () => globalThis.gc() };");
      for (const name of fault ? ["collections", fault] : []) run(readFileSync(beside(`faults/${name}.js`), "utf8"));
      for (const name of [...always, ...listed(text, "includes")]) run(included(name), name);
      run(text, filename);
      if (!listed(text, "flags").includes("async")) $DONE();
    } catch (error) {
      $DONE(error);
    }
  });
}
// The files of a place, those of test262's harness left out.
function testsIn(place) {
  const names = statSync(place).isFile() ? [place] : readdirSync(place, { recursive: true }).map((name) => `${place}/${name}`);
  return names.filter((name) => name.endsWith(".js")).sort().filter((name) => !/^defines:/m.test(readFileSync(name, "utf8")));
}
let passed = 0, failed = 0;
for (const name of words.flatMap(testsIn)) {
  const text = readFileSync(name, "utf8");
  let error;
  for (const before of ["", '"use strict";\n']) error ??= await ended(before + text, name);
  if (error === undefined) passed += 1;
  else failed += 1;
  if (error !== undefined) console.log(`not ok ${name}: ${error.message ?? error}`);
}
console.log(`${passed} passed, ${failed} failed`);
process.exit(failed > 0 ? 1 : 0);
