'use strict';
// Which parts of a source stay in its skeleton, by the places that the nodes of the skeleton keep.
const { partsOf } = require('../tree/walk.js');

/** The place of a node, as `start,end`; of one that no text stands for null. */
const placeOf = (/** @type {forms.Part} */ { span }) => (Array.isArray(span) && span[1] > 0 ? span.join() : null);

/** The places of a tree's nodes. */
function places(/** @type {forms.Part} */ tree) {
  /** @type {Set<string>} */
  const found = new Set();
  const walk = (/** @type {forms.Part} */ at) => {
    const place = placeOf(at);
    if (place !== null) found.add(place);
    partsOf(at).forEach(walk);
  };
  partsOf(tree).forEach(walk);
  return found;
}

/** Marks a source's positions: 1 where the skeleton keeps what stands there, 2 where it goes, 0 where nothing is known. */
class Marks {
  constructor(/** @type {forms.Program} */ program, /** @type {forms.Module} */ skeleton, /** @type {number} */ length) {
    this.kept = places(skeleton);
    this.marks = new Uint8Array(length + 2);
    for (const item of (program.Module || program.Script).body || []) this.paint(item);
  }

  paint(/** @type {forms.Part} */ node) {
    const place = placeOf(node);
    const [start, end] = node.span || [0, 0];
    if (place !== null && this.kept.has(place)) this.marks.fill(1, start, end);
    else if (place !== null && !this.holdsKept(node)) {
      this.marks.fill(2, start, end);
      return;
    }
    for (const each of partsOf(node)) this.paint(each);
  }

  /**
   * Whether something inside of a node stays.
   *
   * @param {forms.Part} node
   * @returns {boolean}
   */
  holdsKept(node) {
    return partsOf(node).some((each) => this.kept.has(placeOf(each) || '') || this.holdsKept(each));
  }
}

module.exports = { Marks };
