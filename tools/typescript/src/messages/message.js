'use strict';
// Messages as people know them from `deno publish`: code, message, place, a frame of the source, hint, info and page.
const { labelOf } = require('./codes.js');
const { blank, visible, width } = require('../tree/lines.js');

/** @typedef {import('./types').Message} Message */
/** @typedef {import('./types').PlainMessage} PlainMessage */
/** @typedef {import('../cli/types').Paint} Paint */
/** @typedef {import('../tree/lines.js').Lines} Lines */

// The most lines of a range that are shown whole, and the most of a line.
const MOST_LINES = 6;
const LONGEST = 160;

/** @type {Record<string, string>} */
const STYLES = { bold: '1', red: '1;31', yellow: '1;33', blue: '94', cyan: '36', plain_yellow: '33', gray: '90', green: '32' };

/** A function that colours a text, or leaves it as it is where no colours are wanted. */
function painter(/** @type {boolean} */ isColoured) {
  return (/** @type {string} */ style, /** @type {string} */ text) => (isColoured ? `\x1b[${STYLES[style]}m${text}\x1b[0m` : text);
}

/** The numbers of the lines that a frame shows; null stands for those that are left out. */
function shownLines(/** @type {number} */ first, /** @type {number} */ last) {
  const all = [];
  for (let line = first; line <= last; line++) all.push(line);
  return all.length <= MOST_LINES ? all : [...all.slice(0, 3), null, last];
}

/** The part of a line that is pointed at: its first and last column, in UTF-16 units. */
function pointed(/** @type {string} */ text, /** @type {number} */ from, /** @type {number} */ to) {
  const start = from < 0 ? text.length - text.trimStart().length : from;
  return [start, Math.max(start, to < 0 ? text.trimEnd().length : to)];
}

/** A line with the carets under it; of a long one what stands around the carets. */
function marked(/** @type {string} */ text, /** @type {number[]} */ range) {
  const [from, to] = range;
  const first = text.length <= LONGEST ? 0 : Math.max(0, Math.min(from - 60, text.length - LONGEST));
  const last = Math.min(text.length, first + LONGEST);
  const [before, behind] = [first > 0 ? '..' : '', last < text.length ? '..' : ''];
  const marks = blank(before + text.slice(first, from)) + '^'.repeat(Math.max(1, width(text.slice(from, Math.min(to, last)))));
  return { shown: before + text.slice(first, last) + behind, marks };
}

/** The frame of a range: its lines with carets under them, and the label behind the last. */
function frame(/** @type {Lines} */ lines, /** @type {number} */ start, /** @type {number} */ end, /** @type {{ label: string | undefined, style: string, paint: Paint, margin: number }} */ { label, style, paint, margin }) {
  const from = lines.place(start);
  const to = lines.place(Math.max(start, end));
  const bar = (/** @type {number | string} */ number) => paint('blue', `${String(number).padStart(margin)} | `);
  const out = [paint('blue', `${' '.repeat(margin)} |`)];
  for (const line of shownLines(from.line, to.line)) {
    if (line === null) {
      out.push(bar('') + paint('blue', '...'));
      continue;
    }
    const text = visible(lines.line(line));
    const { shown, marks } = marked(text, pointed(text, line === from.line ? from.column : -1, line === to.line ? to.column : -1));
    out.push(bar(line + 1) + shown);
    if (line !== from.line && line !== to.line && text.trim() === '') continue;
    const behind = line === to.line && label ? ` ${label}` : '';
    out.push(bar('') + paint(style, marks + behind));
  }
  return out;
}

/**
 * One message, as lines. It has `level`, `code`, `message`, `hint`, `info`, `docs`, `file`, and where it has a place `lines`,
 * `start` and `end` as offsets in the text.
 */
function format(/** @type {Message} */ message, /** @type {Paint} */ paint) {
  const style = message.level === 'Warning' ? 'yellow' : 'red';
  const out = [`${paint(style, `${message.level.toLowerCase()}[${message.code}]`)}${paint('bold', `: ${visible(message.message)}`)}`];
  const last = message.lines ? message.lines.place(Math.max(message.start, message.end)).line + 1 : 1;
  const margin = String(last).length;
  const space = ' '.repeat(margin);
  const shown = visible(message.file || '');
  if (message.lines) {
    const { line, column } = message.lines.shown(message.start);
    out.push(`${space}${paint('blue', '-->')} ${paint('cyan', shown)}${paint('plain_yellow', `:${line}:${column}`)}`);
    out.push(...frame(message.lines, message.start, message.end, { label: labelOf(message.code), style, paint, margin }));
  } else if (message.file) {
    out.push(`${space}${paint('blue', '-->')} ${paint('cyan', shown)}`);
  }
  if (message.hint) out.push(`${space} ${paint('blue', '=')} ${paint('bold', 'hint')}: ${visible(message.hint)}`);
  out.push('');
  for (const each of message.info || []) out.push(`  ${paint('blue', 'info')}: ${visible(each)}`);
  if (message.docs) out.push(`  ${paint('blue', 'docs')}: ${message.docs}`);
  if (out[out.length - 1] !== '') out.push('');
  return out.map((line) => line.trimEnd());
}

/**
 * One message as an object for tools, with lines and columns from 1.
 *
 * @returns {PlainMessage}
 */
function plain(/** @type {Message} */ message) {
  const level = message.level === 'Error' ? 'error' : 'warning';
  const [start, end] = message.lines ? [message.lines.shown(message.start), message.lines.shown(message.end)] : [];
  return {
    level, code: message.code, message: message.message, file: message.file || null,
    ...(message.package ? { package: message.package } : {}),
    ...(start && end ? { line: start.line, column: start.column, endLine: end.line, endColumn: end.column } : {}),
    hint: message.hint || null, info: message.info || [], docs: message.docs || null,
  };
}

module.exports = { format, painter, plain };
