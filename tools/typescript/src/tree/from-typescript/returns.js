'use strict';
// The return statements of a body of TypeScript's tree, in the order of the text, without those of functions within it, and the value by which a body names its
// return type.

const { ts } = require('../../compiler/typescript.js');

const { NEWER } = require('./converter.js');

const { SyntaxKind: K } = ts;

const ENTERED = new Set([
  K.Block, K.WithStatement, K.LabeledStatement, K.IfStatement, K.SwitchStatement, K.CaseBlock, K.CaseClause, K.DefaultClause,
  K.TryStatement, K.CatchClause, K.WhileStatement, K.DoStatement, K.ForStatement, K.ForInStatement, K.ForOfStatement,
]);

/** The return statements that a body reaches. */
function returnsOf(/** @type {ts.Node} */ body) {
  /** @type {ts.ReturnStatement[]} */
  const found = [];
  const visit = (/** @type {ts.Node} */ node) => {
    if (ts.isReturnStatement(node)) found.push(node);
    else if (ENTERED.has(node.kind)) ts.forEachChild(node, visit);
  };
  visit(body);
  return found;
}

// ---- the value by which a body names its return type

const NAMING = new Set([
  K.StringLiteral, K.NumericLiteral, K.BigIntLiteral, K.TrueKeyword, K.FalseKeyword, K.NullKeyword, K.RegularExpressionLiteral,
  K.NoSubstitutionTemplateLiteral, K.TemplateExpression, K.AsExpression, K.TypeAssertionExpression,
]);

/** @returns {boolean} */
function namesType(/** @type {ts.Expression} */ node) {
  if (ts.isParenthesizedExpression(node) || node.kind === NEWER.SatisfiesExpression) return namesType(/** @type {ts.ParenthesizedExpression} */ (node).expression);
  return NAMING.has(node.kind);
}

/** The argument of a function's only return, where that is its last statement and a literal, a template or an assertion; else undefined. */
function namingArgument(/** @type {{ asteriskToken?: ts.Node }} */ node, /** @type {ts.Block} */ body) {
  const last = body.statements[body.statements.length - 1];
  if (node.asteriskToken || !last || !ts.isReturnStatement(last) || !last.expression) return undefined;
  return returnsOf(body).length === 1 && namesType(last.expression) ? last.expression : undefined;
}

module.exports = { namingArgument, returnsOf };
