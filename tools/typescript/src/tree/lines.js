'use strict';
// Lines and columns of a source text, asked by the program's positions.
const { Offsets } = require('./offsets.js');

// What ends a line: also a carriage return by itself, as the compiler and editors take it.
const LINE_END = /\r\n|\n|\r/g;

/** The line and the column of an offset of a text, both from 1, in UTF-16 units. */
function placeAt(/** @type {string} */ text, /** @type {number} */ offset) {
  const before = text.slice(0, offset).split(LINE_END);
  return { line: before.length, column: before[before.length - 1].length + 1 };
}

/** A text with its lines. */
class Lines {
  constructor(/** @type {string} */ text) {
    this.text = text;
    this.offsets = new Offsets(text);
    this.starts = [0];
    for (const found of text.matchAll(LINE_END)) this.starts.push((found.index || 0) + found[0].length);
  }

  /** The offset in the text, in UTF-16 units, of a position. */
  offset(/** @type {number} */ position) {
    return Math.min(this.offsets.offsetOf(Math.max(1, position)), this.text.length);
  }

  /** The place of an offset: the line and the column, both from 0. */
  place(/** @type {number} */ offset) {
    let low = 0;
    let high = this.starts.length;
    while (high - low > 1) {
      const middle = (low + high) >> 1;
      if (this.starts[middle] <= offset) low = middle;
      else high = middle;
    }
    return { line: low, column: offset - this.starts[low] };
  }

  /** The text of a line, without its end. */
  line(/** @type {number} */ number) {
    return this.text.slice(this.starts[number], this.starts[number + 1]).replace(/\r?\n$|\r$/, '');
  }

  /** The line and column that a reader counts: both from 1, columns in characters. */
  shown(/** @type {number} */ offset) {
    const { line, column } = this.place(offset);
    return { line: line + 1, column: [...this.line(line).slice(0, column)].length + 1 };
  }
}

// Characters that take two columns of a terminal.
const WIDE = /[\u1100-\u115f\u2e80-\ua4cf\uac00-\ud7a3\uf900-\ufaff\ufe30-\ufe6f\uff00-\uff60\uffe0-\uffe6\u{1f300}-\u{1faff}]/u;
// Those that take none.
const NARROW = /[\u0300-\u036f\u200b-\u200d\ufe00-\ufe0f]/u;

// eslint-disable-next-line no-control-regex
const CONTROL = /[\u0000-\u0008\u000a-\u001f\u007f-\u009f\u2028-\u202e\u2066-\u2069]/g;

/** A text of a source as a terminal may show it: for what would move, colour or turn it stand pictures of one column. Tabs stay. */
function visible(/** @type {string} */ text) {
  return text.replace(CONTROL, (each) => (each < ' ' ? String.fromCharCode(0x2400 + each.charCodeAt(0)) : each === '\u007f' ? '\u2421' : '\ufffd'));
}

/** The columns that a text takes on a terminal; a tab counts as one, and stays a tab where it is padded. */
function width(/** @type {string} */ text) {
  let columns = 0;
  for (const each of text) columns += WIDE.test(each) ? 2 : NARROW.test(each) ? 0 : 1;
  return columns;
}

/** Blanks as wide as a text, with its tabs. */
function blank(/** @type {string} */ text) {
  return [...text].map((each) => (each === '\t' ? '\t' : ' '.repeat(width(each)))).join('');
}

module.exports = { Lines, blank, placeAt, visible, width };
