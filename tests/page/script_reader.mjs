// Reads scripts by our reader, by acorn and by V8: trees beside acorn's, and what is refused beside both. Prints what differs
// and what was left out, and `N passed, M failed` last.
//
// Usage: node --experimental-vm-modules script_reader.mjs FOLDER [ACORN]. FOLDER has whole.txt, faulty.txt and later.txt. The
// paths of files to be read besides come on standard input, one on each line.

import { readFileSync } from "node:fs";
import { pathToFileURL } from "node:url";
import { SourceTextModule } from "node:vm";
import { SyntaxFault, pointedLine } from "../../play/syntax/fault.mjs";
import { parse } from "../../play/syntax/parse.mjs";

const [folder, acornPath] = process.argv.slice(2);
const acorn = acornPath ? await import(pathToFileURL(acornPath)) : null;
const OPTIONS = { ecmaVersion: 2022, sourceType: "module", allowHashBang: true };
/** What acorn reads, and should not. */
const TOO_MUCH = ["[{ a «= 1 }.b] = c"];
/** The files that both refuse. */
const apart = [];
let passed = 0, failed = 0;

function expect(what, fault) {
  if (fault === null) passed += 1;
  else {
    failed += 1;
    console.log(`FAILED: ${what}: ${fault}`);
  }
}

/** What a reader gives: a tree, or why it refuses. */
function attempt(read, text) {
  try {
    return { tree: read(text) };
  } catch (error) {
    return { error };
  }
}

/** Where two trees differ; null where they do not. */
function difference(one, other, path = "") {
  if (typeof one !== "object" || typeof other !== "object" || one === null || other === null) {
    return Object.is(one, other) ? null : `${path} is ${String(one)}, and acorn's ${String(other)}`;
  }
  if (one instanceof RegExp) return String(one) === String(other) ? null : `${path} is ${one}, and acorn's ${other}`;
  for (const key of new Set([...Object.keys(one), ...Object.keys(other)])) {
    if (!Object.hasOwn(one, key) || !Object.hasOwn(other, key)) return `${path}.${key} has ${Object.hasOwn(one, key) ? "ours" : "acorn"} alone`;
    const found = difference(one[key], other[key], `${path}.${key}`);
    if (found !== null) return found;
  }
  return null;
}

const ours = (text) => attempt(parse, text);
const acorns = (text) => attempt((given) => acorn.parse(given, OPTIONS), text);
const v8s = (text) => attempt((given) => new SourceTextModule(given), text);

const said = ({ error }) => (error ? `refused: ${error.message}` : "read");

/** The rows of a file of scripts. */
function rows(name) {
  const lines = readFileSync(`${folder}/${name}`, "utf8").split("\n");
  return lines.filter((line) => line !== "" && !line.startsWith("# ")).map((line) => line.replaceAll("¶", "\n").replaceAll("␍", "\r"));
}

function tryWhole(text) {
  const found = ours(text), first = [v8s(text), ...(acorn ? [acorns(text)] : [])].find(({ error }) => error);
  if (first) return `this row is none without a fault: ${said(first)}`;
  if (found.error) return said(found);
  return acorn ? difference(found.tree, acorns(text).tree) : null;
}

/** A row with a fault: all refuse it, ours at the letter that the row marks, by its own fault in one sentence. */
function tryFaulty(row, judge) {
  const at = row.indexOf("«"), text = row.replace("«", ""), { error } = ours(text);
  if (judge?.(text).tree) return "another reader reads it";
  if (error === undefined) return "it is read";
  if (!(error instanceof SyntaxFault)) return `it ends with ${error.stack}`;
  if (error.start !== at) return `its fault is told at ${error.start}, and not at ${at}: ${error.message}`;
  if (error.end < error.start || error.end > text.length + 1 || !/^[^a-z].*[^.]\.$/.test(error.message)) return `its fault is ${error.end} ${error.message}`;
  const before = text.slice(0, at).split("\n");
  return error.line === before.length && error.column === before.at(-1).length + 1 ? null : `it is told in line ${error.line}, column ${error.column}`;
}

/** A file: the same tree as acorn's, or both refuse it, and then it is counted apart. */
function tryFile(path) {
  const text = readFileSync(path, "utf8"), found = ours(text), other = acorns(text);
  if (found.error instanceof SyntaxFault && other.error) apart.push(`${path} (${found.error.message})`);
  else expect(path, found.error || other.error ? `we: ${said(found)}; acorn: ${said(other)}` : difference(found.tree, other.tree));
}

// The lists

for (const text of rows("whole.txt")) expect(JSON.stringify(text), tryWhole(text));
for (const row of rows("faulty.txt")) {
  expect(JSON.stringify(row), tryFaulty(row, v8s));
  if (acorn && !TOO_MUCH.includes(row)) expect(`${JSON.stringify(row)}, by acorn`, acorns(row.replace("«", "")).tree ? "acorn reads it" : null);
}
for (const row of rows("later.txt")) expect(JSON.stringify(row), tryFaulty(row, acorn && acorns));

// Faults in words, and their lines

const fault = (text) => ours(text).error;
const same = (what, got, wanted) => expect(what, got === wanted ? null : `${JSON.stringify(got)}, and not ${JSON.stringify(wanted)}`);
for (const [text, words] of [
  ["let a; let a", /'a'.*already/], ["function f() { await a }", /'await'.*async/], ["break", /'break'.*loop/], ["f() + 1 = a", /value/],
  ["const a", /constant.*value/], ["a(b", /'\)'.*end of the script/], ["class A { b() { this.#c } }", /'#c'/], ["continue a", /'a'/], ["a = 01", /0o/],
]) expect(text, words.test(fault(text).message) ? null : fault(text).message);
same("a line", pointedLine("a\n\tb cd e\nf", 5, 7), "\tb cd e\n\t  ^^");
same("the end of a line", pointedLine("ab\ncd", 2, 3), "ab\n  ^");
same("an end of a line of two letters", pointedLine("ab\r\ncd", 5, 6), "cd\n ^");
same("more than one line", pointedLine("ab\ncd", 0, 5), "ab\n^^");
const long = `${"a".repeat(70)}(${"b".repeat(200)}`;
same("a long line", pointedLine(long, 70, 71), `${"a".repeat(60)}(${"b".repeat(39)}\n${" ".repeat(60)}^`);
for (const open of ["(", "[", "{", "a(", "a => ", "-", "`${", "function f() {", "class A { a = ", "({ a: ", "if (a) "]) {
  const { error } = ours(open.repeat(200_000));
  expect(`'${open}' without end`, error instanceof SyntaxFault && error.message.includes("deeply") ? null : String(error));
}

// Time: 200 kB are read within a tenth of a second of the processor, once the reader was in use.

const own = ["statements", "expressions", "tokens", "patterns"].map((name) => readFileSync(new URL(`../../play/syntax/${name}.mjs`, import.meta.url), "utf8"));
const part = own.map((text) => `{${text.replace(/^import .*$/gm, "").replace(/^export /gm, "")}}\n`).join("");
const much = part.repeat(Math.ceil(200_000 / part.length));
const times = Array.from({ length: 10 }, () => {
  const begun = process.cpuUsage();
  parse(much);
  const { user, system } = process.cpuUsage(begun);
  return (user + system) / 1000;
});
expect(`the time of ${much.length} letters`, Math.min(...times) < 100 ? null : `${Math.min(...times)} ms`);

// Files

const paths = readFileSync(0, "utf8").split("\n").filter(Boolean);
if (acorn) paths.forEach(tryFile);
if (apart.length > 0) console.log(`Outside the language, and refused by both, are ${apart.length} files: ${apart.join(", ")}.`);
console.log(`${passed} passed, ${failed} failed`);
process.exit(failed === 0 ? 0 : 1);
