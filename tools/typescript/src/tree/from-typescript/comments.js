'use strict';
// Comments: each before the token that follows it, or after the one that it follows on its line.

const { ts } = require('../../compiler/typescript.js');

/** @typedef {import('../offsets.js').Offsets} Offsets */
/** @typedef {import('../types').Comment} Comment */

const { SyntaxKind: K } = ts;

/** @typedef {{ kind: 'Line' | 'Block', start: number, end: number, text: string }} Scanned */

const JSX = new Set([K.JsxElement, K.JsxSelfClosingElement, K.JsxFragment]);

function isTemplatePiece(/** @type {ts.SyntaxKind} */ kind) {
  return kind >= K.FirstTemplateToken && kind <= K.LastTemplateToken;
}

/** The leaves whose text may look like comments: where each ends, by where it begins. */
function opaqueLeaves(/** @type {ts.SourceFile} */ sourceFile) {
  const leaves = new Map();
  const ends = new Set();
  const visit = (/** @type {ts.Node} */ node) => {
    const { kind } = node;
    const isOpaque = kind === K.StringLiteral || kind === K.RegularExpressionLiteral || isTemplatePiece(kind) || JSX.has(kind);
    if (isOpaque) leaves.set(ts.getTokenPosOfNode(node, sourceFile, false), node.end);
    const isName = kind === K.Identifier || kind === K.PrivateIdentifier;
    if (isName || isOpaque || kind === K.NumericLiteral || kind === K.BigIntLiteral) ends.add(node.end);
    if (!JSX.has(kind)) ts.forEachChild(node, visit);
  };
  visit(sourceFile);
  return { leaves, ends };
}

const BLANK = /[ \t\v\f\u00a0\ufeff\u1680\u2000-\u200a\u202f\u205f\u3000\r\n\u2028\u2029]+/y;
// Text in which no comment and no leaf begins.
const PLAIN = /[^\s/"'`<}\u00a0\ufeff\u1680\u2000-\u200a\u2028\u2029\u202f\u205f\u3000]+/y;
const LINE = /[^\r\n\u2028\u2029]*/y;

function matchEnd(/** @type {RegExp} */ pattern, /** @type {string} */ text, /** @type {number} */ at) {
  pattern.lastIndex = at;
  return pattern.test(text) ? pattern.lastIndex : at;
}

/** Calls back for each comment, and for each other piece of text between blanks and comments. */
function scan(/** @type {string} */ text, /** @type {Map<number, number>} */ leaves, /** @type {(comment: Scanned) => void} */ onComment, /** @type {(start: number, end: number) => void} */ onToken) {
  let at = text.startsWith('#!') ? matchEnd(LINE, text, 0) : 0;
  while (at < text.length) {
    const leaf = leaves.get(at);
    const two = text.substr(at, 2);
    if (leaf !== undefined && leaf > at) {
      onToken(at, leaf);
      at = leaf;
    } else if (two === '//') {
      const end = matchEnd(LINE, text, at);
      onComment({ kind: 'Line', start: at, end, text: text.slice(at + 2, end) });
      at = end;
    } else if (two === '/*') {
      const close = text.indexOf('*/', at + 2);
      const end = close < 0 ? text.length : close + 2;
      onComment({ kind: 'Block', start: at, end, text: text.slice(at + 2, close < 0 ? end : close) });
      at = end;
    } else {
      const blank = matchEnd(BLANK, text, at);
      if (blank === at) {
        const end = Math.max(at + 1, matchEnd(PLAIN, text, at));
        onToken(at, end);
        at = end;
      } else {
        at = blank;
      }
    }
  }
}

function add(/** @type {Map<number, Comment[]>} */ map, /** @type {number} */ position, /** @type {Comment} */ comment) {
  const there = map.get(position);
  if (there) there.push(comment);
  else map.set(position, [comment]);
}

/** Whether the comment stands behind the last token, rather than before the next one. */
function trails(/** @type {Scanned} */ comment, /** @type {{ end: number } | null} */ token, /** @type {string} */ text, /** @type {Set<number>} */ ends) {
  if (!token || /[\r\n]/.test(text.slice(token.end, comment.start))) return false;
  if (comment.kind === 'Line') return true;
  return ends.has(token.end) || '};{'.includes(text[token.end - 1]);
}

/** Whether skeletons keep a comment: those of documentation, and those that speak to the compiler. */
const isKept = (/** @type {Comment} */ { kind, text }) => (kind === 'Block' ? text.startsWith('*') : /^[\s\x85]*@ts-/.test(text));

/** Lists of comments with those that skeletons keep, whose places nothing asks for. */
function keptOf(/** @type {[position: number, comments: Comment[]][]} */ lists) {
  const kept = (/** @type {Comment[]} */ all) => all.filter(isKept).map(({ kind, text }) => ({ kind, text }));
  return lists.map(([position, all]) => /** @type {[number, Comment[]]} */ ([position, kept(all)])).filter(([, all]) => all.length);
}

/** The comments of a file: lists of `[position, comments]`; with `short` those that skeletons keep. */
function commentsOf(/** @type {ts.SourceFile} */ sourceFile, /** @type {Offsets} */ offsets, short = false) {
  const { text } = sourceFile;
  if (!/\/[/*]/.test(text)) return { leading: [], trailing: [] };
  const { leaves, ends } = opaqueLeaves(sourceFile);
  const leading = new Map();
  const trailing = new Map();
  /** @type {Comment[]} */
  let waiting = [];
  /** @type {{ end: number } | null} */
  let last = null;
  const onComment = (/** @type {Scanned} */ it) => {
    /** @type {Comment} */
    const made = { kind: it.kind, span: [offsets.of(it.start), offsets.of(it.end)], text: it.text };
    if (last && waiting.length === 0 && trails(it, last, text, ends)) add(trailing, offsets.of(last.end), made);
    else waiting.push(made);
  };
  const onToken = (/** @type {number} */ start, /** @type {number} */ end) => {
    for (const it of waiting) add(leading, offsets.of(start), it);
    waiting = [];
    last = { end };
  };
  scan(text, leaves, onComment, onToken);
  const end = /** @type {{ end: number } | null} */ (last);
  for (const it of waiting) add(trailing, offsets.of(end ? end.end : 0), it);
  const [before, behind] = [[...leading], [...trailing]];
  return short ? { leading: keptOf(before), trailing: keptOf(behind) } : { leading: before, trailing: behind };
}

module.exports = { commentsOf };
