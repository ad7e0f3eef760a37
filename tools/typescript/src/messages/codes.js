'use strict';
// The codes of messages, and where they come from: from the program, from what this tool finds beside it, or from what keeps a package from being read.

/** @typedef {'program' | 'own' | 'refused'} Source */
/** @typedef {{ label?: string, message?: string }} Told what the range is to a reader, and the message with what stands for the names in it */

/** @type {Record<string, Told>} */
const PROGRAM = { // written by forms/write.py from forms/diagnostics.txt
  'not-found-reference': { label: 'this is the reference', message: "could not resolve '{name}' referenced from '{referrer}'" },
  'missing-explicit-type': { label: 'this symbol is missing an explicit type' },
  'missing-explicit-return-type': { label: 'this function is missing an explicit return type' },
  'unsupported-ambient-module': {},
  'unsupported-complex-reference': { label: 'this is the reference', message: "the reference '{name}' from '{referrer}' was too complex" },
  'unsupported-default-export-expr': {},
  'unsupported-destructuring': {},
  'unsupported-expando-property': { message: "expando property referencing '{reference_name}' conflicts with '{object_name}.{reference_name}'" },
  'unsupported-global-module': {},
  'unsupported-require': {},
  'unsupported-private-member-reference': { label: 'this is the reference', message: 'public API member ({referrer}) is referencing or transitively referencing a class private member ({name})' },
  'unsupported-super-class-expr': { label: 'this is the superclass expression' },
  'unsupported-ts-export-assignment': {},
  'unsupported-ts-namespace-export': {},
  'unsupported-using': {},
  'unsupported-nested-javascript': {},
  'unsupported-javascript-entrypoint': {},
  'export-not-found': {},
};
/** What the program says of a function without return type: the hint at what may be written, and of an asynchronous one that answers nothing the line that says more. */
const RETURNS = { // written by forms/write.py from forms/diagnostics.txt
  anything: 'add an explicit return type to the function',
  nothing: "add an explicit return type of 'void' or 'never' to the function",
  promise: "add an explicit return type of 'Promise<void>' or 'Promise<never>' to the function",
  promiseLine: "async function expressions without a return statement can have a return type of either 'Promise<void>' or 'Promise<never>'",
};
const OWN = ['built-entry-point', 'declared-otherwise', 'missing-module', 'unresolved-import', 'no-entry-point', 'shadowed-global', 'untold-type', 'widened-literal'];
const REFUSED = ['bad-configuration', 'internal-error', 'nested-too-deep', 'refused-file', 'syntax-error'];

const from = (/** @type {string[]} */ codes, /** @type {Source} */ source) => Object.fromEntries(codes.map((code) => [code, source]));

/** @type {Record<string, Source>} */
const CODES = { ...from(Object.keys(PROGRAM), 'program'), ...from(OWN, 'own'), ...from(REFUSED, 'refused') };

// Those that a written type may answer.
const FIXABLE = new Set(['missing-explicit-return-type', 'missing-explicit-type', 'unsupported-default-export-expr', 'unsupported-destructuring']);

// The errors of TypeScript's compiler, which are reported by their numbers.
const OF_COMPILER = /^typescript-\d+$/;

/** Whether there are messages of a code. */
function isCode(/** @type {string} */ code) {
  return Object.hasOwn(CODES, code) || OF_COMPILER.test(code);
}

/** Whether messages of a code may be left out: of what keeps a folder from being read, there is nothing to go on with. */
function mayBeAllowed(/** @type {string} */ code) {
  return isCode(code) && CODES[code] !== 'refused';
}

/** What the range of a message is to a reader, by its code; undefined where nothing is said of it. */
function labelOf(/** @type {string} */ code) {
  return CODES[code] === 'program' ? PROGRAM[code].label : undefined;
}

/**
 * The names in a message of the program by what they are, as its code has them.
 *
 * @returns {Record<string, string>}
 */
function namesIn(/** @type {string} */ code, /** @type {string} */ message) {
  const parts = (PROGRAM[code].message || '').split(/\{(\w+)\}/);
  /** @type {Record<string, string>} */
  const names = {};
  let rest = message.slice(parts[0].length);
  for (let at = 1; at < parts.length; at += 2) {
    const behind = parts[at + 1];
    const end = at + 2 < parts.length ? rest.indexOf(behind) : rest.length - behind.length;
    names[parts[at]] = rest.slice(0, end);
    rest = rest.slice(end + behind.length);
  }
  return names;
}

module.exports = { CODES, FIXABLE, PROGRAM, RETURNS, isCode, labelOf, mayBeAllowed, namesIn };
