'use strict';
// Text that grows line by line, with the comments that stand at its tokens.

/** @typedef {import('../types').Comment} Comment */
/** @typedef {import('../types').Comments} Comments */

const STEP = '  ';
// The most characters that a list on one line has.
const WIDE = 80;

function byPosition(/** @type {[number, Comment[]][] | null | undefined} */ list) {
  return new Map(list || []);
}

/** A block comment whose lines begin with `*`, moved to an indentation. */
function moved(/** @type {string} */ text, /** @type {string} */ indent) {
  const lines = text.split(/\r\n?|\n/);
  if (!lines.slice(1).every((it) => /^\s*\*|^\s*$/.test(it))) return text;
  return lines.map((it, place) => (place === 0 ? it : `${indent} ${it.trim()}`)).join('\n');
}

/** Whether a comment has the compiler expect an error in the next line. */
function expectsError(/** @type {{ kind: string, text: string }} */ { kind, text }) {
  return kind === 'Line' ? /^\/?\s*@ts-expect-error/.test(text) : /^\s*[/*]*\s*@ts-expect-error/.test(text.split(/\r\n?|\n/).pop() || '');
}

class Writer {
  constructor(/** @type {Comments | null} */ comments) {
    /** @type {string[]} */
    this.pieces = [];
    this.indent = '';
    this.isLineStart = true;
    this.wantsLine = false;
    this.held = 0;
    this.isAmbient = false;
    this.asWritten = false;
    this.isAngleReserved = false;
    this.leadingAt = byPosition(comments && comments.leading);
    this.trailingAt = byPosition(comments && comments.trailing);
  }

  /** Writes a part of a line. */
  write(/** @type {string} */ text) {
    if (!text) return;
    if (this.wantsLine) {
      this.wantsLine = false;
      this.line();
      text = text.trimStart();
      if (!text) return;
    }
    if (this.isLineStart) this.pieces.push(this.indent);
    this.isLineStart = false;
    this.pieces.push(text);
  }

  /** Writes a text as it is, within a part of a line. */
  raw(/** @type {string} */ text) {
    this.pieces.push(text);
  }

  line() {
    this.wantsLine = false;
    if (!this.isLineStart) {
      this.pieces.push('\n');
      this.held -= 1;
    }
    this.isLineStart = true;
  }

  /** Whether the line stands behind a comment that has the compiler pass over the errors of one line. */
  isHeld() {
    return this.held === 1;
  }

  /** Whether what a call writes is broken into lines: on a single one, and without comments, it is wide. The line after a comment such as `@ts-ignore` stays whole. */
  isWide(/** @type {(line: Writer) => void} */ call) {
    return !this.isHeld() && new Line(this).isExceeded(call);
  }

  /** What is written in the call stands further to the right. */
  indented(/** @type {() => void} */ call) {
    const outer = this.indent;
    this.indent = outer + STEP;
    call();
    this.indent = outer;
  }

  /** Writes a comment. One that expects an error only allows it in a skeleton, since the error may lie in what the skeleton leaves out. */
  comment(/** @type {{ kind: string, text: string }} */ written) {
    const isExpected = !this.asWritten && expectsError(written);
    const comment = isExpected ? { ...written, text: written.text.replace(/@ts-expect-error(?=[^\r\n]*$)/, '@ts-ignore') } : written;
    if (/@ts-(ignore|expect-error)/.test(comment.text)) this.held = 2;
    if (comment.kind === 'Line') this.write(`//${comment.text}`);
    else this.write(`/*${moved(comment.text, this.indent)}*/`);
  }

  /** Writes the comments before the token at a position. */
  leading(/** @type {number} */ position) {
    const found = position && this.leadingAt.get(position);
    if (!found) return;
    this.leadingAt.delete(position);
    for (const it of found) {
      const isOwnLine = this.isLineStart || this.wantsLine;
      this.comment(it);
      if (it.kind === 'Line' || isOwnLine) this.line();
      else this.write(' ');
    }
  }

  /** Writes the comments after the token that ends at a position. */
  trailing(/** @type {number} */ position) {
    const found = position && this.trailingAt.get(position);
    if (!found) return;
    this.trailingAt.delete(position);
    for (const it of found) {
      this.write(' ');
      this.comment(it);
      if (it.kind === 'Line') this.wantsLine = true;
    }
  }

  hasLeading(/** @type {number} */ position) {
    return this.leadingAt.has(position);
  }

  hasTrailing(/** @type {number} */ position) {
    return this.trailingAt.has(position);
  }

  text() {
    const text = this.pieces.join('');
    return text && !text.endsWith('\n') ? `${text}\n` : text;
  }
}

/** A single line without comments, which is measured and not kept. */
class Line extends Writer {
  constructor(/** @type {Writer} */ outer) {
    super(null);
    this.isAmbient = outer.isAmbient;
    this.asWritten = outer.asWritten;
    this.isAngleReserved = outer.isAngleReserved;
    this.width = 0;
  }

  /** Whether the call writes more than a list on one line has. It is left as soon as it does. */
  isExceeded(/** @type {(line: Writer) => void} */ call) {
    try {
      call(this);
    } catch (error) {
      if (error !== EXCEEDED) throw error;
    }
    return this.width > WIDE;
  }

  write(/** @type {string} */ text) {
    this.width += [...text].length;
    if (this.width > WIDE) throw EXCEEDED;
  }

  raw(/** @type {string} */ text) {
    this.write(text);
  }

  line() {}

  isWide() {
    return false;
  }
}

const EXCEEDED = new Error('the line is wide');

module.exports = { Writer };
