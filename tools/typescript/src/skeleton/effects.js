'use strict';
// Whether the rules may part from TypeScript in a package without a message, so that `--verify` may tell more.

const { traitsOf } = require('../program/answers.js');

/** @typedef {import('../program/types').World} World */

// What of a value is no name of another one: types, and the class of `new C()`.
const PASSED_OVER = new Set(['type_ann', 'type_params', 'type_args', 'return_type', 'callee']);

/** @type {(it: unknown) => it is forms.Part} */
const isPart = (it) => it !== null && typeof it === 'object';

/**
 * Whether a value has the name of another one in it, which is none of `own`.
 *
 * @param {forms.Part} value
 * @param {Set<string>} own
 * @returns {boolean}
 */
function hasName(value, own) {
  if (value.Ident && 'sym' in value.Ident) return !own.has(value.Ident.sym);
  return Object.entries(value).some(([key, each]) => isPart(each) && !PASSED_OVER.has(key) && !(key === 'key' && each.Ident) && hasName(each, own));
}

/** The names of the members of an enum, which its values may use. */
function memberNames(/** @type {forms.TsEnumDecl} */ { members = [] }) {
  return new Set(members.map(({ id }) => (id.Ident ? id.Ident.sym : id.Str.value)));
}

/**
 * Whether a skeleton keeps a value that has the name of another one in it, as a constant, in place of a type.
 *
 * @param {forms.Part} tree
 * @param {Set<string>} own
 * @returns {boolean}
 */
function keepsName(tree, own = new Set()) {
  // A list of numbers is a place, of which a tree has many.
  if (Array.isArray(tree)) return typeof tree[0] !== 'number' && tree.some((each) => isPart(each) && keepsName(each, own));
  const values = [tree.init, tree.value, tree.right];
  if (values.some((it) => isPart(it) && hasName(it, own))) return true;
  const names = tree.TsEnum ? memberNames(tree.TsEnum) : own;
  for (const key in tree) {
    const each = /** @type {Record<string, unknown>} */ (tree)[key];
    if (isPart(each) && !PASSED_OVER.has(key) && keepsName(each, names)) return true;
  }
  return false;
}

/** Whether a source refers to another one by a comment. */
function refersTo(/** @type {string} */ text) {
  return /^\s*\/\/\/\s*<reference\b/m.test(text);
}

/** Whether a source imports a module for its effects alone, which may change the types of others, or refers to one by a comment. */
function hasEffects(/** @type {string} */ text, /** @type {forms.Program} */ { Module }) {
  const isEffect = (/** @type {forms.ModuleItem} */ { ModuleDecl: it }) => it && it.Import && !it.Import.type_only && !(it.Import.specifiers || []).length;
  return refersTo(text) || Boolean(Module && (Module.body || []).some(isEffect));
}

/** Whether `--verify` may tell more of a folder than its messages do. */
function mayTellMore(/** @type {World} */ world) {
  return [...world.skeletons.values()].some((it) => traitsOf(it).mayKeepValue && keepsName(it.program)) || world.info.modules.some((it) => it.hasEffects && world.skeletons.has(it.specifier));
}

module.exports = { hasEffects, mayTellMore, refersTo };
