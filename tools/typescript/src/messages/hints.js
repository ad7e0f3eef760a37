'use strict';
// Hints that know more of a source than the program does.

/** @typedef {import('../package/types').Module} Module */
/** @typedef {import('../program/types').Diagnostic} Diagnostic */

const { RETURNS } = require('./codes.js');
const { partsOf } = require('../tree/walk.js');


/** Whether a statement returns a value, in the tree of a body that is cut short. */
const returnsValue = (/** @type {forms.Stmt} */ { Return: it }) => Boolean(it && it.arg);

/** Whether an asynchronous function answers with a value. */
function hasValue(/** @type {forms.Part} */ { body }) {
  const { Expr, BlockStmt, ...own } = /** @type {forms.Part} */ (body || {});
  if (!body || Expr) return Boolean(body);
  return ((BlockStmt || /** @type {forms.BlockStmt} */ (own)).stmts || []).some(returnsValue);
}

/**
 * The asynchronous function whose name, or which itself, stands at a place; undefined where there is none.
 *
 * @param {forms.Part} node
 * @param {number} place
 * @param {number | null} name
 * @returns {forms.Part | undefined}
 */
function asyncAt(node, place, name = null) {
  const own = node.is_async && node.span ? node.span[0] : null;
  if (own !== null && (own === place || name === place)) return node;
  const inside = placeOfName(node) || name;
  for (const each of partsOf(node)) {
    const found = asyncAt(each, place, inside);
    if (found) return found;
  }
  return undefined;
}

/** Where the name of a declaration or a member stands; undefined of what has none. */
function placeOfName(/** @type {forms.Part} */ { ident, key, name }) {
  const variable = /** @type {forms.Part | undefined} */ (name && typeof name === 'object' ? name : undefined);
  const binding = /** @type {forms.BindingIdent | undefined} */ (variable && variable.Ident);
  const named = /** @type {forms.Part | undefined} */ (ident || (key && !Array.isArray(key) && Object.values(key)[0]) || (binding && binding.id));
  return named && named.span ? named.span[0] : undefined;
}

/**
 * The hint and the lines that say more of a diagnostic: an asynchronous function that answers with a value is not told that it answers with none, and no other
 * one that it answers with no promise.
 *
 * @returns {{ hint: string | null, info: string[] }}
 */
function hintOf(/** @type {Diagnostic} */ { code, hint, info, range }, /** @type {Module | undefined} */ module) {
  const isAsked = code === 'missing-explicit-return-type' && module && range && hint !== RETURNS.anything;
  const found = isAsked && module.tree.program && asyncAt(module.tree.program, range[0]);
  if (!found) return { hint, info };
  if (!hasValue(found)) return { hint: RETURNS.promise, info };
  return { hint: "add an explicit return type of 'Promise<..>' to the function", info: info.filter((it) => it !== RETURNS.promiseLine) };
}

module.exports = { hintOf };
