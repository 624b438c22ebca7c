// What a module imports and exports (ECMA-262, 16.2).

import { classOf } from "./classes.mjs";
import { assignment } from "./expressions.mjs";
import { functionOf } from "./functions.mjs";
import { anyName } from "./objects.mjs";
import { eachName } from "./patterns.mjs";
import { literal } from "./primary.mjs";
import { isAsyncFunction, listItem } from "./statements.mjs";
import { TEXT } from "./tokens.mjs";

/** What may stand at the top of a module. */
export function moduleItem(r) {
  if (r.kind === "export") return exportDeclaration(r);
  if (r.kind !== "import") return listItem(r);
  const next = r.peek();
  return next.kind === "(" || next.kind === "." ? listItem(r) : importDeclaration(r);
}

/** Each name that is exported from here has to be declared here. */
export function checkExports(r) {
  const odd = r.exportedHere.find(({ name }) => !r.scope.names.has(name));
  if (odd) r.fail(`'${odd.name}' is exported, and nothing declares it.`, odd.start, odd.end);
}

/** A name of an export, which may be a text. */
function exportName(r) {
  if (r.kind !== TEXT) return anyName(r);
  if (/\p{Surrogate}/u.test(r.value)) r.fail("The name of an export has no half of a pair.");
  return literal(r);
}

/** The address of a module, after `from`. */
function address(r) {
  return r.kind === TEXT ? literal(r) : r.fail(`The address of a module is expected here, as a text, and there is ${r.found()}.`);
}

// Imports

function importDeclaration(r) {
  const { start } = r;
  r.next();
  const specifiers = r.kind === TEXT ? [] : importSpecifiers(r);
  const source = address(r);
  r.semicolon();
  return { type: "ImportDeclaration", start, end: r.lastEnd, specifiers, source };
}

function importSpecifiers(r) {
  const found = [];
  if (r.kind === "name") found.push(imported(r, r.start, "ImportDefaultSpecifier"));
  if (found.length === 0 || r.eat(",")) {
    if (r.kind === "*") found.push(namespace(r));
    else found.push(...listed(r, importSpecifier));
  }
  r.expectWord("from");
  return found;
}

/** A name that is declared by an import. */
function imported(r, start, type, more = {}) {
  const local = r.identifier();
  r.checkAssigned(local);
  r.declare(local, "declareLexical");
  return { type, start, end: r.lastEnd, ...more, local };
}

function namespace(r) {
  const { start } = r;
  r.next();
  r.expectWord("as");
  return imported(r, start, "ImportNamespaceSpecifier");
}

function importSpecifier(r) {
  const { start } = r, name = exportName(r);
  if (r.eatWord("as")) return imported(r, start, "ImportSpecifier", { imported: name });
  if (name.type === "Literal") r.expectWord("as");
  r.checkName(name.name, name);
  r.checkAssigned(name);
  r.declare(name, "declareLexical");
  return { type: "ImportSpecifier", start, end: r.lastEnd, imported: name, local: name };
}

/** What stands in braces, with commas between. */
function listed(r, read) {
  const found = [];
  r.expect("{");
  while (r.kind !== "}") {
    found.push(read(r));
    r.comma("}");
  }
  r.next();
  return found;
}

// Exports

function exportDeclaration(r) {
  const { start } = r;
  r.next();
  if (r.kind === "*") return exportAll(r, start);
  if (r.kind === "default") return exportDefault(r, start);
  return r.kind === "{" ? exportNames(r, start) : exportDeclared(r, start);
}

function addExport(r, name, { start, end }) {
  if (r.exported.has(name)) r.fail(`'${name}' is exported already.`, start, end);
  r.exported.add(name);
}

function exportAll(r, start) {
  r.next();
  const exported = r.eatWord("as") ? exportName(r) : null;
  if (exported !== null) addExport(r, exported.name ?? exported.value, exported);
  r.expectWord("from");
  const source = address(r);
  r.semicolon();
  return { type: "ExportAllDeclaration", start, end: r.lastEnd, exported, source };
}

function exportDefault(r, start) {
  addExport(r, "default", r);
  r.next();
  let declaration;
  if (r.kind === "function" || isAsyncFunction(r)) declaration = functionOf(r, r.start, { mayLackName: true });
  else if (r.kind === "class") declaration = classOf(r, false, true);
  else {
    declaration = assignment(r);
    r.semicolon();
  }
  return { type: "ExportDefaultDeclaration", start, end: r.lastEnd, declaration };
}

function exportDeclared(r, start) {
  const isDeclaration = ["var", "const", "class", "function"].includes(r.kind) || r.isWord("let") || isAsyncFunction(r);
  if (!isDeclaration) r.unexpected();
  const declaration = listItem(r);
  const add = (name) => addExport(r, name.name, name);
  if (declaration.type === "VariableDeclaration") declaration.declarations.forEach(({ id }) => eachName(id, add));
  else add(declaration.id);
  return { type: "ExportNamedDeclaration", start, end: r.lastEnd, declaration, specifiers: [], source: null };
}

function exportNames(r, start) {
  const specifiers = listed(r, exportSpecifier);
  const source = r.eatWord("from") ? address(r) : null;
  if (source === null) specifiers.forEach(({ local }) => exportHere(r, local));
  r.semicolon();
  return { type: "ExportNamedDeclaration", start, end: r.lastEnd, declaration: null, specifiers, source };
}

function exportSpecifier(r) {
  const { start } = r, local = exportName(r), exported = r.eatWord("as") ? exportName(r) : local;
  addExport(r, exported.name ?? exported.value, exported);
  return { type: "ExportSpecifier", start, end: r.lastEnd, local, exported };
}

function exportHere(r, local) {
  if (local.type === "Literal") r.fail("A text names an export of another module alone.", local.start, local.end);
  r.exportedHere.push(local);
}
