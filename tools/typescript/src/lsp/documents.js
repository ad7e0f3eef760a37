'use strict';
// The texts of files that are open in the editor, and positions in texts: lines and UTF-16 units of a line, both from 0.
const { fileURLToPath } = require('url');
const { differenceOf } = require('../diff/names.js');
const { Lines } = require('../tree/lines.js');

/** @typedef {import('./types').Position} Position */
/** @typedef {import('./types').TextChange} TextChange */

/** The path of a document; null of one that is no file. */
function pathOf(/** @type {string} */ uri) {
  try {
    return uri.startsWith('file:') ? fileURLToPath(uri) : null;
  } catch {
    return null;
  }
}

/** The offset in a text of a position. One behind the end of a line is the end of the line. */
function offsetAt(/** @type {Lines} */ lines, /** @type {Position} */ { line, character }) {
  if (line >= lines.starts.length) return lines.text.length;
  return lines.starts[line] + Math.min(character, lines.line(line).length);
}

function positionAt(/** @type {Lines} */ lines, /** @type {number} */ offset) {
  const { line, column } = lines.place(offset);
  return { line, character: column };
}

function rangeOf(/** @type {Lines} */ lines, /** @type {number} */ start, /** @type {number} */ end) {
  return { start: positionAt(lines, start), end: positionAt(lines, Math.max(start, end)) };
}

/** A text behind the changes that an editor tells, one behind the other. */
function changedText(/** @type {string} */ text, /** @type {TextChange[]} */ changes) {
  return changes.reduce((before, { range, text: inserted }) => {
    if (!range) return inserted;
    const lines = new Lines(before);
    return before.slice(0, offsetAt(lines, range.start)) + inserted + before.slice(offsetAt(lines, range.end));
  }, text);
}

/** The lines of a text, each with its end. */
const wholeLines = (/** @type {string} */ text) => text.match(/[^\n]*\n|[^\n]+$/g) || [];

/** The edits, of whole lines, that make one text of another. */
function editsBetween(/** @type {string} */ before, /** @type {string} */ after) {
  const lines = new Lines(before);
  /** @type {{ start: number, end: number, newText: string }[]} */
  const edits = [];
  let offset = 0;
  let isOpen = false;
  for (const [kind, text] of differenceOf(wholeLines(before), wholeLines(after))) {
    if (kind !== ' ' && !isOpen) edits.push({ start: offset, end: offset, newText: '' });
    isOpen = kind !== ' ';
    const last = edits[edits.length - 1];
    if (kind === '+') last.newText += text;
    else offset += text.length;
    if (kind === '-') last.end = offset;
  }
  return edits.map(({ start, end, newText }) => ({ range: rangeOf(lines, start, end), newText }));
}

module.exports = { changedText, editsBetween, offsetAt, pathOf, rangeOf };
