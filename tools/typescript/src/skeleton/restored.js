'use strict';
// What the program's skeletons say by other words than their sources.

const { partsOf } = require('../tree/walk.js');

/** @typedef {import('../program/types').Request} Request */
/** @typedef {import('../package/types').Module} Module */
/** @typedef {import('../program/types').Answer} Answer */

// Behind the name of a private static member beside another private one of that name. No name has a blank.
const STATIC = ' static';
// How the program names a module to itself.
const ITSELF = './';

function withoutMark(/** @type {string} */ name) {
  return name.endsWith(STATIC) ? name.slice(0, -STATIC.length) : name;
}

/** Changes a tree where a name has a mark, and where a source is the module itself, whose file has the name `own`. */
function restore(/** @type {forms.Part} */ node, /** @type {string} */ own) {
  for (const source of [node.src, node.arg]) if (source && 'value' in source && source.value === ITSELF) source.value += own;
  if (typeof node.sym === 'string') node.sym = withoutMark(node.sym);
  for (const each of partsOf(node)) restore(each, own);
}

/** Whether a source has a name with a mark. */
const isMarked = (/** @type {string} */ source) => source.includes(`${STATIC}"`);

/** The modules of a request that have a mark, or that a source of their own leads to. */
function changedModules(/** @type {Request} */ { graph }, /** @type {Module[]} */ modules) {
  const own = graph.resolutions.filter(([from, , to]) => from === to).map(([from]) => from);
  const marked = modules.filter(({ parts }) => parts && parts.marks.isMarked).map(({ specifier }) => specifier);
  return new Set([...own, ...marked]);
}

/** The program's answers to a request of some modules, with skeletons by the words of their sources. */
function restored(/** @type {Answer[]} */ answers, /** @type {Request} */ request, /** @type {Module[]} */ modules) {
  const changed = changedModules(request, modules);
  for (const [specifier, { Ok: skeleton }] of answers) {
    if (skeleton && changed.has(specifier)) restore(skeleton.program, decodeURIComponent(specifier.slice(specifier.lastIndexOf('/') + 1)));
  }
  return answers;
}

module.exports = { STATIC, isMarked, restored, withoutMark };
