'use strict';
// A text as lines of HTML, each with its number, and the messages behind the lines at which they end.
const { labelOf } = require('../messages/codes.js');

/** @typedef {import('../program/types').SourceFile} SourceFile */
/** @typedef {import('../messages/types').PlacedMessage} PlacedMessage */
/** @typedef {import('../messages/types').Message} Message */
/** @typedef {import('../tree/lines.js').Lines} Lines */
/** @typedef {(message: Message) => string | undefined} Written */

/** @type {Record<string, string>} */
const ESCAPES = { '&': '&amp;', '<': '&lt;', '>': '&gt;', '"': '&quot;' };
const MARKS = ['', 'kept', 'gone'];

function escape(/** @type {unknown} */ text) {
  return String(text).replace(/[&<>"]/g, (each) => ESCAPES[each]);
}

/** The id of a module's section, and of a line of its source. */
function idOf(/** @type {string} */ name, line = 0) {
  return `module-${encodeURIComponent(name).replace(/%/g, '_')}${line ? `-${line}` : ''}`;
}

/** The class of each place of a text, in UTF-16 units: what stays and goes, and where messages point to. */
function classesOf(/** @type {SourceFile} */ file, /** @type {Uint8Array | null} */ marks, /** @type {PlacedMessage[]} */ messages) {
  const classes = new Array(file.text.length).fill('');
  if (marks) {
    let position = 1;
    for (let at = 0; at < file.text.length; at++) {
      classes[at] = MARKS[marks[position]];
      position = file.lines.offsets.of(at + 1);
    }
  }
  for (const { start, end, level } of messages) {
    const wrong = level === 'Warning' ? 'wrong warning' : 'wrong';
    for (let at = start; at < Math.max(end, start + 1) && at < classes.length; at++) classes[at] = `${classes[at]} ${wrong}`.trim();
  }
  return classes;
}

/** A line of text as runs of one class each. */
function line(/** @type {string} */ text, /** @type {number} */ start, /** @type {string[]} */ classes) {
  const indent = text.length - text.trimStart().length;
  let made = text.slice(0, indent);
  for (let at = indent; at < text.length;) {
    const name = classes[start + at];
    let end = at + 1;
    while (end < text.length && classes[start + end] === name) end++;
    const part = escape(text.slice(at, end));
    made += name ? `<span class="${name}">${part}</span>` : part;
    at = end;
  }
  return made;
}

/** What is said of a message besides its code and its text. `written` is the line that `fix` writes in place of its own. */
function more(/** @type {Message} */ each, /** @type {string | undefined} */ written) {
  const page = each.docs && `<a href="${escape(each.docs)}">${escape(each.docs)}</a>`;
  const line = written === undefined ? null : `<code>fix</code> writes <code>${escape(written)}</code>`;
  return [line, each.hint && `hint: ${escape(each.hint)}`, ...(each.info || []).map(escape), page].filter(Boolean);
}

/** A message, whose code leads to its line where it has one. */
function message(/** @type {Message} */ each, /** @type {string | undefined} */ written = undefined, href = '') {
  const label = labelOf(each.code) ? `: ${labelOf(each.code)}` : '';
  const lines = more(each, written).map((it) => `<div>${it}</div>`).join('');
  const code = href ? `<a href="#${href}">${escape(each.code)}</a>` : escape(each.code);
  return `<div class="message${each.level === 'Warning' ? ' warning' : ''}"><b>${code}</b> ${escape(each.message)}${escape(label)}${lines}</div>`;
}

/** The rows of a text. Of a source, with a name, each number leads to its row. */
function listing(/** @type {Lines} */ lines, /** @type {string[]} */ classes, /** @type {PlacedMessage[]} */ messages, name = '', /** @type {Written} */ written = () => undefined) {
  const behind = new Map();
  for (const each of messages) {
    const at = lines.place(Math.max(each.start, each.end)).line;
    behind.set(at, (behind.get(at) || '') + message(each, written(each), idOf(name, lines.place(each.start).line + 1)));
  }
  const number = (/** @type {number} */ at) => {
    if (!name) return `<a data-line="${at}"></a>`;
    const id = idOf(name, at);
    return `<a id="${id}" href="#${id}" tabindex="-1" data-line="${at}"></a>`;
  };
  const rows = [];
  const last = lines.line(lines.starts.length - 1) === '' ? lines.starts.length - 1 : lines.starts.length;
  for (let at = 0; at < last; at++) rows.push(`<span class="row">${number(at + 1)}${line(lines.line(at), lines.starts[at], classes)}</span>${behind.get(at) || ''}`);
  for (const [at, text] of behind) if (at >= last) rows.push(text);
  return `<pre tabindex="0">${rows.join('')}</pre>`;
}

module.exports = { classesOf, escape, idOf, listing, message };
