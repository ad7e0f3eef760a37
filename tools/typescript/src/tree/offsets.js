'use strict';
// Positions as the program counts them: the byte offset in the text's UTF-8, plus 1.

/** How many bytes of UTF-8 the code unit at `at` brings; of a surrogate pair the first one brings all four. */
function bytesOf(/** @type {string} */ text, /** @type {number} */ at) {
  const unit = text.charCodeAt(at);
  if (unit < 0x80) return 1;
  if (unit < 0x800) return 2;
  if (unit >= 0xd800 && unit < 0xdc00 && at + 1 < text.length) {
    const next = text.charCodeAt(at + 1);
    if (next >= 0xdc00 && next < 0xe000) return 4;
  }
  const isSecond = unit >= 0xdc00 && unit < 0xe000 && at > 0 && (text.charCodeAt(at - 1) & 0xfc00) === 0xd800;
  return isSecond ? 0 : 3;
}

/** Leads from offsets in a text (code units, as TypeScript counts) to positions, and back. */
class Offsets {
  constructor(/** @type {string} */ text) {
    this.text = text;
    this.places = null;
    // eslint-disable-next-line no-control-regex
    if (/[^\x00-\x7f]/.test(text)) {
      this.places = new Uint32Array(text.length + 1);
      let place = 1;
      for (let at = 0; at < text.length; at++) {
        this.places[at] = place;
        place += bytesOf(text, at);
      }
      this.places[text.length] = place;
    }
  }

  /** The position of an offset. */
  of(/** @type {number} */ offset) {
    return this.places ? this.places[offset] : offset + 1;
  }

  /** The offset of a position. */
  offsetOf(/** @type {number} */ position) {
    if (!this.places) return position - 1;
    let low = 0;
    let high = this.text.length;
    while (low < high) {
      const middle = (low + high) >> 1;
      if (this.places[middle] < position) low = middle + 1;
      else high = middle;
    }
    return low;
  }
}

module.exports = { Offsets };
