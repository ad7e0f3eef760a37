'use strict';
// Which messages are left out: of codes that are allowed on the command line or by a comment above a declaration, and of a baseline.
const fs = require('fs');
const path = require('path');
const { UsageError } = require('../cli/args.js');
const { plain } = require('./message.js');

/** @typedef {import('./types').Message} Message */
/** @typedef {import('./types').PlainMessage} PlainMessage */
/** @typedef {import('../cli/types').Options} Options */
/** @typedef {import('../program/types').World} World */
/** @typedef {import('../program/types').SourceFile} SourceFile */

// A comment that allows messages of one or more codes in the declaration below it.
const COMMENT = /^\/[/*]\s*fast-check-ignore\s+([a-z0-9-]+(?:[\s,]+[a-z0-9-]+)*)/;
const WORD = 'fast-check-ignore';

/** The codes that the comments before a node allow. */
function codesBefore(/** @type {string} */ text, /** @type {ts.Node} */ node) {
  const { ts } = require('../compiler/typescript.js');
  const comments = ts.getLeadingCommentRanges(text, node.pos) || [];
  return comments.flatMap(({ pos, end }) => (COMMENT.exec(text.slice(pos, end)) || ['', ''])[1].split(/[\s,]+/));
}

/** The codes that comments allow at an offset of a text: those before each node around it. */
function codesAt(/** @type {SourceFile} */ file, /** @type {number} */ offset) {
  const { ts } = require('../compiler/typescript.js');
  const { parse } = require('../tree/index.js');
  const source = file.parsed || (file.parsed = parse(file.path, file.text));
  const found = new Set();
  const walk = (/** @type {ts.Node} */ node) => {
    for (const code of codesBefore(file.text, node)) found.add(code);
    ts.forEachChild(node, (child) => {
      if (child.pos <= offset && offset < child.end) walk(child);
    });
  };
  ts.forEachChild(source, (child) => {
    if (child.pos <= offset && offset < child.end) walk(child);
  });
  return found;
}

/** Whether a comment allows a message, by the files that have such comments. */
function isIgnored(/** @type {Message} */ message, /** @type {SourceFile[]} */ files) {
  const file = files.find((each) => each.lines === message.lines);
  return Boolean(file && message.lines && codesAt(file, message.start).has(message.code));
}

/** The messages of a folder without those that the command line, the settings of their package or a comment allows. */
function withoutAllowed(/** @type {World} */ world, /** @type {Message[]} */ messages, /** @type {Options} */ { allow: codes = [], noIgnore }) {
  const files = noIgnore ? [] : [...world.files.values()].filter(({ text }) => text.includes(WORD));
  const isAllowed = (/** @type {Message} */ each) => codes.includes(each.code) || (packageOfMessage(world, each) || NO_SETTINGS).allow.includes(each.code);
  return messages.filter((each) => !isAllowed(each) && !(files.length && isIgnored(each, files)));
}

/** @type {{ allow: string[] }} */
const NO_SETTINGS = { allow: [] };

/** The package that a message is about. */
function packageOfMessage(/** @type {World} */ { info, files }, /** @type {Message} */ { specifier = '' }) {
  const { packageOf } = require('../program/answer.js');
  const file = files.get(specifier);
  return file ? packageOf(info, file.path) : undefined;
}

/** The messages that no baseline of the settings has. The files of a baseline are named from its own folder. */
function withoutSettledBaselines(/** @type {World} */ world, /** @type {Message[]} */ messages, /** @type {string} */ cwd) {
  return world.info.packages.reduce((left, { dir, baseline }) => {
    if (baseline === null) return left;
    const from = path.dirname(baseline);
    const renamed = new Map(left.map((each) => [{ ...each, file: each.file && path.relative(from, path.resolve(cwd, each.file)) }, each]));
    const isOwn = (/** @type {Message} */ { file }) => Boolean(file) && !path.relative(dir, path.resolve(from, file || '')).startsWith('..');
    const kept = new Set(Baseline.of(baseline, from).without([...renamed.keys()].filter(isOwn)));
    return [...renamed].filter(([each]) => !isOwn(each) || kept.has(each)).map(([, each]) => each);
  }, messages);
}

/**
 * What a message is known by, wherever it stands in its file.
 *
 * @param {{ code: string, file?: string | null, message: string }} message
 */
function keyOf({ code, file, message }) {
  return JSON.stringify([code, file, message]);
}

/** The messages that a baseline has, by what they are known by. */
class Baseline {
  constructor(/** @type {PlainMessage[]} */ messages) {
    this.known = new Map();
    for (const each of messages) this.known.set(keyOf(each), [...(this.known.get(keyOf(each)) || []), `${each.line}:${each.column}`]);
  }

  /** The baseline of a file: what `check --json` writes, an object a line. */
  static of(/** @type {string} */ name, /** @type {string} */ cwd) {
    const lines = fs.readFileSync(path.resolve(cwd, name), 'utf8').split('\n');
    return new Baseline(lines.flatMap((line, at) => {
      if (!line.trim()) return [];
      try {
        const found = JSON.parse(line);
        return found.code === undefined ? [] : [found];
      } catch {
        throw new UsageError(`${name}:${at + 1} is no JSON: a baseline is what \`check --json\` writes`);
      }
    }));
  }

  /** The messages that are new: of those alike as many are known as the baseline has, those at their old places first. */
  without(/** @type {Message[]} */ messages) {
    const isKnown = new Set();
    const left = new Map([...this.known].map(([key, places]) => [key, [...places]]));
    const take = (/** @type {Message} */ each, /** @type {string | null} */ wanted) => {
      const places = left.get(keyOf(plain(each))) || [];
      const at = wanted === null ? places.length - 1 : places.indexOf(wanted);
      if (at < 0) return;
      places.splice(at, 1);
      isKnown.add(each);
    };
    for (const each of messages) take(each, `${plain(each).line}:${plain(each).column}`);
    for (const each of messages) if (!isKnown.has(each)) take(each, null);
    return messages.filter((each) => !isKnown.has(each));
  }
}

module.exports = { Baseline, withoutAllowed, withoutSettledBaselines };
