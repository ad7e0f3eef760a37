'use strict';
// The places in what the program is sent and answers. A module whose places alone are others, as behind an edit of a body, has the same shape, and is answered the same
// at its own places: the program compares places, and does not reckon with them.
const crypto = require('crypto');

/** @typedef {Pick<import('../package/types').Parts, 'source' | 'tables'>} Made */

// Where places stand in the JSON of a tree, of comments and of tables. No text has an unescaped quotation mark.
const PLACES = /"(?:span|spread|dot3_token|range)":\[\d+,\d+\]|\[\d+,\[\{"kind":|\[\[\d+,\d+\],"/g;
const NUMBER = /\d+/g;

/** What a module's source and its tables are, as JSON. */
const textOf = (/** @type {Made} */ { source, tables }) => `${source}\n${JSON.stringify(tables)}`;

/** All places of a module in order, each once; first of all that of what has no place. */
function placesIn(/** @type {string} */ text) {
  const numbers = [...text.matchAll(PLACES)].flatMap(([it]) => (it.match(NUMBER) || []).map(Number));
  return Float64Array.from(new Set([0, ...numbers])).sort();
}

/** A hash of a module with the order of its places in their stead. */
function shapeOf(/** @type {Made} */ parts) {
  const text = textOf(parts);
  const order = new Map([...placesIn(text)].map((place, at) => [String(place), String(at)]));
  const ordered = text.replace(PLACES, (it) => it.replace(NUMBER, (place) => /** @type {string} */ (order.get(place))));
  return crypto.createHash('sha256').update(ordered).digest('base64');
}

/**
 * Puts the places of a module in the stead of those of another one of the same shape, in what the program answers: each number in a list is a place.
 *
 * @param {Made} from
 * @param {Made} to
 * @returns {<T>(answer: T) => T}
 */
function mover(from, to) {
  const [before, now] = [from, to].map((it) => placesIn(textOf(it)));
  const moved = new Map([...before].map((place, at) => [place, now[at]]));
  /** @type {(value: any) => any} */
  const move = (value) => {
    if (Array.isArray(value)) return value.map((it) => (typeof it === 'number' ? moved.get(it) : move(it)));
    if (value !== null && typeof value === 'object') for (const key of Object.keys(value)) value[key] = move(value[key]);
    return value;
  };
  return move;
}

module.exports = { mover, shapeOf };
