'use strict';
// Source, tree, text, tree: a printed tree has to be parsed to the same tree again.
//
//   node roundtrip.js FILE..

const fs = require('fs');
const { toTree, parse } = require('../src/tree/index.js');
const { print } = require('../src/tree/print/index.js');

const PLACES = new Set(['span', 'dot3_token', 'spread']);

/** The tree as text, without places; sources of their own text alone. */
function shape(/** @type {unknown} */ tree) {
  return JSON.stringify(tree, (key, value) => (PLACES.has(key) ? Boolean(value) : value));
}

/**
 * What went wrong with a file: null, or a word and a text.
 *
 * @returns {string[] | null}
 */
function roundTrip(/** @type {string} */ name, /** @type {string} */ text) {
  const first = toTree(parse(name, text));
  const [wrong] = [...first.errors, ...first.faults];
  if (wrong) return ['refused', wrong.message];
  if (!first.program) return ['refused', 'there is no tree'];
  const printed = print(first.program, first.comments, { asWritten: true, name });
  const second = toTree(parse(name, printed));
  if (second.errors.length) {
    const { message, offset } = second.errors[0];
    return ['printed wrongly', `${message} in:\n${printed.slice(Math.max(0, offset - 80), offset + 80)}`];
  }
  const [before, after] = [shape(first.program), shape(second.program)];
  if (before === after) return null;
  let place = 0;
  while (before[place] === after[place]) place += 1;
  const [shown, other] = [before, after].map((it) => it.slice(Math.max(0, place - 160), place + 100));
  return ['different', `\n  ${shown}\n  ${other}`];
}

/** Tries the files, and reports those that do not come back. */
function main(/** @type {string[]} */ files) {
  /** @type {Record<string, number>} */
  const counts = {};
  for (const file of files) {
    /** @type {string[] | null} */
    let found = null;
    try {
      found = roundTrip(file, fs.readFileSync(file, 'utf8').replace(/^\ufeff/, ''));
    } catch (error) {
      found = ['failed', String(/** @type {Error} */ (error).stack)];
    }
    const word = found ? found[0] : 'same';
    counts[word] = (counts[word] || 0) + 1;
    if (found) console.log(`${file}: ${found[0]}: ${found[1]}`);
  }
  console.log(JSON.stringify(counts));
  return counts.same === files.length ? 0 : 1;
}

module.exports = { roundTrip, shape };
if (require.main === module) process.exitCode = main(process.argv.slice(2));
