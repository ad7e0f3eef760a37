'use strict';
// The type that the only return of a function asserts, in the program's tree. The compiler is not asked.
const { variantOf } = require('../tree/walk.js');
const { JsonText, textOf, withModules } = require('../program/request.js');

/** @typedef {import('../program/types').RequestModule} RequestModule */
/** @typedef {import('../program/types').Request} Request */

// An empty list is left out of a tree.
const stmtsOf = (/** @type {forms.BlockStmt | null | undefined} */ block) => (block && block.stmts) || [];

/** @type {{ [V in keyof forms.StmtVariants]?: (node: forms.StmtVariants[V]) => (forms.Stmt | null | undefined)[] }} */
const STATEMENTS = {
  Block: stmtsOf,
  With: (node) => [node.body],
  Labeled: (node) => [node.body],
  If: (node) => [node.cons, node.alt],
  Switch: (node) => (node.cases || []).flatMap((each) => each.cons || []),
  Try: (node) => [node.block, node.handler && node.handler.body, node.finalizer].flatMap(stmtsOf),
  While: (node) => [node.body],
  DoWhile: (node) => [node.body],
  For: (node) => [node.body],
  ForIn: (node) => [node.body],
  ForOf: (node) => [node.body],
};

/** @returns {number} */
function countReturns(/** @type {(forms.Stmt | null | undefined)[]} */ stmts) {
  let count = 0;
  for (const choice of stmts) {
    if (!choice) continue;
    const [variant, node] = variantOf(choice);
    const inside = /** @type {((node: object) => (forms.Stmt | null | undefined)[]) | undefined} */ (STATEMENTS[variant]);
    count += variant === 'Return' ? 1 : inside ? countReturns(inside(node)) : 0;
  }
  return count;
}

/**
 * The type that a value asserts, or null.
 *
 * @returns {forms.TsType | null}
 */
function assertedType(/** @type {forms.Expr} */ value) {
  const around = value.Paren || value.TsSatisfies;
  const asserted = value.TsAs || value.TsTypeAssertion;
  return around ? assertedType(around.expr) : asserted ? asserted.type_ann : null;
}

/** The type that the only return of a function or an arrow asserts, where that is its last statement; else null. */
function typeNamedBy(/** @type {forms.Part} */ node) {
  const body = /** @type {forms.Part | null | undefined} */ (node.body);
  const stmts = stmtsOf(body && /** @type {forms.BlockStmt} */ (body.BlockStmt || body));
  const last = stmts[stmts.length - 1];
  if (node.is_generator || !last || !last.Return || !last.Return.arg || countReturns(stmts) !== 1) return null;
  return assertedType(last.Return.arg);
}

// ---- and whether any does, in the JSON of trees that are cut short: no other returned value is kept in one

const NAMING_RETURN = /"Return":\{"span":\[\d+,\d+\],"arg":\{"(?!This")/;

const namesReturns = (/** @type {string} */ source) => NAMING_RETURN.test(source);

/** A tree whose returned values name no type. */
function withoutNames(/** @type {string} */ key, /** @type {forms.Part & { span: forms.Span }} */ value) {
  return key === 'Return' && value.arg ? { ...value, arg: { This: { span: value.span } } } : value;
}

/** A request in which no body names its return type by its only return. */
function withoutNamedReturns(/** @type {Request} */ request) {
  /** @type {(module: RequestModule[1]) => RequestModule[1]} */
  const less = (module) => {
    const source = module.Esm && textOf(module.Esm.source);
    return module.Esm && source && namesReturns(source) ? { Esm: { ...module.Esm, source: new JsonText(JSON.stringify(JSON.parse(source, withoutNames))) } } : module;
  };
  return withModules(request, () => request.modules.map(([name, module]) => [name, less(module)]));
}

module.exports = { assertedType, namesReturns, typeNamedBy, withoutNamedReturns };
