// The statements of a script, by the tree of its text: what one step of a trace is.

const LOOPS = new Set(["ForStatement", "ForInStatement", "ForOfStatement", "WhileStatement", "DoWhileStatement"]);
const FUNCTIONS = new Set(["FunctionDeclaration", "FunctionExpression", "ArrowFunctionExpression", "PropertyDefinition", "StaticBlock"]);

/** The parts of a node, in the order of the text. */
export function* partsOf(node) {
  for (const value of Object.values(node)) {
    for (const part of Array.isArray(value) ? value : [value]) if (typeof part?.type === "string") yield part;
  }
}

const isStatement = ({ type }) => type !== "BlockStatement" && (type.endsWith("Statement") || type.endsWith("Declaration"));

/** Each statement, the parameters of each function, and each body of an arrow function that is an expression: its node, from
    where to where it stands, up to where its own words go (`head`), and whether it may come again without another one between.
    One stands before those in it. */
export function statementsOf(tree) {
  const found = [];
  const add = (node, { start, end }, repeats, more) => found.push({ node, start, end, head: end, repeats, isParameters: false, ...more });
  const visit = (node, repeats) => {
    if (isStatement(node)) add(node, node, repeats, { head: headOf(node) });
    if (node.params?.length > 0) add(node, { start: node.params[0].start, end: node.params.at(-1).end }, true, { isParameters: true });
    for (const part of partsOf(node)) {
      if (node.type === "ArrowFunctionExpression" && part === node.body && part.type !== "BlockStatement") add(part, part, true);
      visit(part, repeats || LOOPS.has(node.type) || FUNCTIONS.has(node.type));
    }
  };
  visit(tree, false);
  return found;
}

/** Where a statement's own words end: of one that has others in it, before the first of them. */
function headOf(node) {
  const inner = [node.body, node.consequent, node.block, node.cases?.[0]].flat().find((part) => typeof part?.type === "string");
  const declares = node.type === "FunctionDeclaration" || node.type === "ClassDeclaration";
  return inner && (declares || node.type !== "ExpressionStatement") ? Math.max(node.start + 1, inner.start) : node.end;
}

/** The innermost statement that has a place in it; null where none has. */
export function statementAt(statements, place) {
  return statements.findLast(({ start, end }) => start <= place.start && place.end <= end) ?? null;
}
