'use strict';
// The line that `fast-check build` answers with. A skeleton is read where a part of it is asked for: a check looks into few of them.

/** @typedef {import('./types').Answer} Answer */
/** @typedef {import('./types').Skeleton} Skeleton */
/** @typedef {import('./types').AnswerAt} AnswerAt */
/** @typedef {import('./types').Traits} Traits */
/** @typedef {<T>(answer: T) => T} Mover puts places in the stead of others */

// How an answer begins: no list within a skeleton or a diagnostic has a text and an object behind each other, and no text has an unescaped quotation mark.
const BEGINNING = /\["(?:[^"\\]|\\.)*",\{"(Ok|Err)":/g;

// What a skeleton may have, by its JSON: a value that stays, of a variable, a member, a property or a parameter; a reference to a type that the program wrote; a value
// that is the default export.
const VALUE = /"(?:init|value|right)":[{[]/;
const MADE = /"TsTypeRef":\{"span":\[0,/;
const DEFAULT = /"ExportDefaultExpr":/;

/** @returns {Traits} */
function traitsIn(/** @type {string} */ text) {
  return { mayKeepValue: VALUE.test(text), mayHaveMade: MADE.test(text), mayHaveDefault: DEFAULT.test(text) };
}

/**
 * What skeletons that were answered may have.
 *
 * @type {WeakMap<Skeleton, Traits>}
 */
const traits = new WeakMap();

/** @type {Mover} */
const asItIs = (answer) => answer;

/** @returns {Skeleton} */
function skeletonOf(/** @type {() => string} */ textOf, /** @type {Mover} */ move) {
  /** @type {Skeleton | null} */
  let read = null;
  const whole = () => {
    read = read || move(/** @type {Skeleton} */ (JSON.parse(textOf())));
    return read;
  };
  return {
    get program() {
      return whole().program;
    },
    get comments() {
      return whole().comments;
    },
    get module_info() {
      return whole().module_info;
    },
  };
}

/**
 * Where the answers of a line of the program stand in it; null where the line is not as it is written here.
 *
 * @returns {AnswerAt[] | null}
 */
function answersIn(/** @type {string} */ line) {
  const found = [...line.matchAll(BEGINNING)].map(({ index = 0, 0: head, 1: word }) => ({ index, start: index + head.length, word }));
  if (!found.length || found[0].index !== 1 || !line.endsWith('}]]')) return null;
  return found.map(({ index, start, word }, at) => {
    // Behind an answer stand the brackets of its pair, and a comma or the bracket of the list.
    const end = (at + 1 < found.length ? found[at + 1].index : line.length) - '}],'.length;
    const specifier = JSON.parse(line.slice(index + 1, start - `,{"${word}":`.length));
    return { specifier, start, end, traits: word === 'Ok' ? traitsIn(line.slice(start, end)) : null };
  });
}

/**
 * The answers that stand in a line, with other places of some modules.
 *
 * @param {AnswerAt[]} all
 * @param {() => string} lineOf
 * @param {Map<string, Mover>} movers
 * @returns {Answer[]}
 */
function answersAt(all, lineOf, movers = new Map()) {
  const moverOf = (/** @type {string} */ specifier) => movers.get(specifier) || asItIs;
  return all.map(({ specifier, start, end, traits: found }) => {
    const textOf = () => lineOf().slice(start, end);
    if (found) {
      const skeleton = skeletonOf(textOf, moverOf(specifier));
      traits.set(skeleton, found);
      return [specifier, { Ok: skeleton }];
    }
    const list = /** @type {import('./types').Diagnostic[]} */ (JSON.parse(textOf()));
    return [specifier, { Err: list.map((it) => ({ ...it, range: moverOf(it.specifier)(it.range) })) }];
  });
}

/**
 * The answers of a line of the program.
 *
 * @returns {Answer[]}
 */
function answersOf(/** @type {string} */ line) {
  const all = answersIn(line);
  return all ? answersAt(all, () => line) : JSON.parse(line);
}

/** What a skeleton may have: of one that was not answered, all. */
function traitsOf(/** @type {Skeleton} */ skeleton) {
  return traits.get(skeleton) || { mayKeepValue: true, mayHaveMade: true, mayHaveDefault: true };
}

module.exports = { answersAt, answersIn, answersOf, traitsOf };
