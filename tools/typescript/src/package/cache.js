'use strict';
// What is kept of sources that did not change: their texts while a run goes on, and trees and tables, in memory and in a folder between runs.
const crypto = require('crypto');
const fs = require('fs');
const path = require('path');
const { candidateFiles, keepIn } = require('../compiler/find.js');
const { makeFolder } = require('./files.js');
const { folderFor } = require('../cli/kept-in.js');
const { Offsets } = require('../tree/offsets.js');
const { shapeOf } = require('../program/places.js');

/** @typedef {import('./types').Module} Module */
/** @typedef {import('./types').Parts} Parts */
/** @typedef {import('./types').KeptAnswers} KeptAnswers */
/** @typedef {import('./types').ReadText} ReadText */

// How long a file has to be unchanged before it was read, in milliseconds, so that its time says whether it changed since.
const SETTLED = 100;
// How long what is not asked for stays in the folder, and how often this is looked at, in milliseconds.
const DAY = 86400000;
const LONGEST = 30 * DAY;

// What ends a line of an entry.
const NEWLINE = 10;

// How many rounds what is not asked for stays in memory, as while a configuration is broken.
const ROUNDS = 10;

const hashOf = (/** @type {string | Buffer} */ data) => crypto.createHash('sha256').update(/** @type {string} */ (data)).digest('hex');
// What only says whether an entry is damaged, in a third of the time.
const checkOf = (/** @type {Buffer} */ data) => crypto.createHash('md5').update(/** @type {Uint8Array} */ (data)).digest('hex');

/** The parts of a module in an entry: its source and its tables are read where they are asked for. */
class KeptParts {
  constructor(/** @type {Omit<Parts, 'source' | 'tables'> & { length: number }} */ head, /** @type {Buffer} */ rest) {
    this.sources = head.sources;
    this.hasEffects = head.hasEffects;
    this.marks = head.marks;
    this.shape = head.shape;
    this.length = head.length;
    this.rest = rest;
    /** @type {import('../tables/types').OwnTables | null} */
    this.read = null;
  }

  get source() {
    return this.rest.toString('utf8', 0, this.length);
  }

  /** @returns {import('../tables/types').OwnTables} */
  get tables() {
    this.read = this.read || JSON.parse(this.rest.toString('utf8', this.length));
    return /** @type {import('../tables/types').OwnTables} */ (this.read);
  }
}

/** What is known of a module whose parts are kept. */
class KeptModule {
  constructor(/** @type {string} */ text, /** @type {Parts} */ parts, /** @type {string} */ key) {
    this.parts = parts;
    this.key = key;
    this.tree = new KeptTree(text, parts);
  }

  get hasEffects() {
    return this.parts.hasEffects;
  }
}

/** The tree of a module whose parts are kept: read from them where it is asked for. */
class KeptTree {
  constructor(/** @type {string} */ text, /** @type {Parts} */ parts) {
    this.text = text;
    this.parts = parts;
    this.sources = parts.sources;
    /** @type {import('../tree/types').TreeError[]} */
    this.errors = [];
    /** @type {import('../tree/types').TreeFault[]} */
    this.faults = [];
    /** @type {import('../program/types').Source | null} */
    this.read = null;
  }

  /** @returns {import('../program/types').Source} */
  get whole() {
    this.read = this.read || JSON.parse(this.parts.source);
    return /** @type {import('../program/types').Source} */ (this.read);
  }

  get program() {
    return this.whole.program;
  }

  get comments() {
    return this.whole.comments;
  }

  get unresolvedContext() {
    return this.whole.unresolved_context;
  }

  get offsets() {
    return new Offsets(this.text);
  }
}

/** A folder of entries by their keys. Each is a line with a checksum of what follows, a line of JSON, and maybe a text. What is damaged is dropped. */
class Folder {
  constructor(/** @type {string} */ folder) {
    this.folder = folder;
    this.isWritable = true;
  }

  fileOf(/** @type {string} */ key) {
    return path.join(this.folder, key.slice(0, 2), key.slice(2));
  }

  /** What an entry has as JSON, and what stands behind it; null where there is none. */
  entry(/** @type {string} */ key) {
    const file = this.fileOf(key);
    try {
      const bytes = fs.readFileSync(file);
      const at = bytes.indexOf(NEWLINE);
      const end = bytes.indexOf(NEWLINE, at + 1);
      if (end >= 0 && bytes.toString('latin1', 0, at) === checkOf(bytes.subarray(at + 1))) {
        if (Date.now() - fs.statSync(file).mtimeMs > DAY) fs.utimesSync(file, new Date(), new Date());
        return { head: JSON.parse(bytes.toString('utf8', at + 1, end)), rest: bytes.subarray(end + 1) };
      }
      this.remove(file);
    } catch {
      // It is not there, or not to be read: then it is made anew.
    }
    return null;
  }

  get(/** @type {string} */ key) {
    const found = this.entry(key);
    return found && found.head;
  }

  /** Writes an entry beside its place and moves it there, so that another run reads it whole or not at all. Where that fails, nothing more is written. */
  put(/** @type {string} */ key, /** @type {object} */ head, rest = '') {
    if (!this.isWritable) return;
    const file = this.fileOf(key);
    const beside = `${file}.${process.pid}`;
    const bytes = Buffer.from(`${JSON.stringify(head)}\n${rest}`);
    try {
      makeFolder(path.dirname(file));
      fs.writeFileSync(beside, /** @type {Uint8Array} */ (Buffer.concat(/** @type {Uint8Array[]} */ ([Buffer.from(`${checkOf(bytes)}\n`), bytes]))), { mode: 0o600 });
      fs.renameSync(beside, file);
    } catch {
      this.isWritable = false;
      this.remove(beside);
    }
  }

  remove(/** @type {string} */ file) {
    try {
      fs.rmSync(file, { force: true });
    } catch {
      // It is below something that is no folder.
    }
  }

  /** Once a day removes what was not asked for in a month. */
  tidy() {
    const mark = path.join(this.folder, 'tidied');
    try {
      const last = fs.statSync(mark, { throwIfNoEntry: false });
      if (last && Date.now() - last.mtimeMs < DAY) return;
      fs.writeFileSync(mark, '');
      for (const below of fs.readdirSync(this.folder).filter((it) => /^[0-9a-f]{2}$/.test(it))) this.tidyBelow(path.join(this.folder, below));
    } catch {
      // Another run may be at it, or the folder may not be written to.
    }
  }

  tidyBelow(/** @type {string} */ folder) {
    for (const name of fs.readdirSync(folder)) {
      const file = path.join(folder, name);
      if (Date.now() - fs.statSync(file).mtimeMs > LONGEST) fs.rmSync(file, { force: true });
    }
  }
}

/** What is kept of the sources that a run reads. `folder` is that of entries between runs, or null; `maker` says which compiler and tool make them. */
class Kept {
  constructor(/** @type {string | null} */ folder, /** @type {() => string} */ maker) {
    this.folder = folder && new Folder(folder);
    this.maker = maker;
    /** @type {Map<string, { found: ReadText, stamp: string, isSettled: boolean, round: number }>} */
    this.texts = new Map();
    /** @type {Map<string, { parts: Parts, round: number }>} */
    this.parts = new Map();
    /** @type {Map<string, KeptAnswers>} */
    this.answers = new Map();
    // The folders that the compiler reads from now on.
    /** @type {Set<string>} */
    this.forCompiler = new Set();
    this.round = 0;
    this.made = 0;
  }

  /** Begins a round: what the last rounds did not ask for is let go. */
  begin() {
    this.round += 1;
    this.made = 0;
    for (const all of [this.texts, this.parts]) for (const [key, { round }] of all) if (round < this.round - ROUNDS) all.delete(key);
  }

  /** Ends a run: a folder that was written to is tidied. */
  end() {
    if (this.folder && this.made) this.folder.tidy();
  }

  /**
   * The text of a file, read by `read(file)` where the file may have changed.
   *
   * @returns {ReadText}
   */
  textOf(/** @type {string} */ file, /** @type {(file: string) => ReadText} */ read) {
    const { mtimeMs, size, ino } = fs.statSync(file);
    const stamp = `${mtimeMs} ${size} ${ino}`;
    const known = this.texts.get(file);
    if (known && known.stamp === stamp && known.isSettled) {
      known.round = this.round;
      return known.found;
    }
    const isSettled = Date.now() - mtimeMs > SETTLED;
    const found = read(file);
    this.texts.set(file, { found, stamp, isSettled, round: this.round });
    return found;
  }

  keyOf(/** @type {string} */ mediaType, /** @type {string} */ text) {
    return hashOf(`${this.maker()}\n${mediaType}\n${text}`);
  }

  /**
   * The parts of a key, or null where none are kept.
   *
   * @returns {Parts | null}
   */
  partsOf(/** @type {string} */ key) {
    const known = this.parts.get(key);
    const entry = known ? null : this.folder && this.folder.entry(key);
    const parts = known ? known.parts : entry ? new KeptParts(entry.head, entry.rest) : null;
    if (parts) this.parts.set(key, { parts, round: this.round });
    return parts;
  }

  /** A module of kept parts, or null where none are kept. */
  find(/** @type {string} */ mediaType, /** @type {string} */ text) {
    const key = this.keyOf(mediaType, text);
    const parts = this.partsOf(key);
    return parts && new KeptModule(text, parts, key);
  }

  /**
   * What the compiler answered of the files of a folder, or null.
   *
   * @returns {KeptAnswers | null}
   */
  answersOf(/** @type {string} */ root) {
    const found = this.answers.get(root) || (this.folder && this.folder.get(this.keyOf('answers', root)));
    if (found) this.answers.set(root, found);
    return found;
  }

  putAnswers(/** @type {string} */ root, /** @type {KeptAnswers} */ answers) {
    this.answers.set(root, answers);
    if (this.folder) this.folder.put(this.keyOf('answers', root), answers);
  }

  /** Whether it is noted that the compiler reads a folder, whose trees are kept, and not the program: by this run, or by an earlier one where that counts. */
  isForCompiler(/** @type {string} */ root, /** @type {boolean} */ isLasting) {
    return this.forCompiler.has(root) || Boolean(isLasting && this.folder && this.folder.get(this.keyOf('reader', root)));
  }

  noteForCompiler(/** @type {string} */ root, /** @type {boolean} */ isLasting) {
    this.forCompiler.add(root);
    if (isLasting && this.folder) this.folder.put(this.keyOf('reader', root), {});
  }

  /** The last answer that is kept under a name, or null. */
  lastOf(/** @type {string} */ name) {
    return this.folder && this.folder.entry(this.keyOf('last', name));
  }

  putLast(/** @type {string} */ name, /** @type {object} */ head, /** @type {string} */ line) {
    if (this.folder) this.folder.put(this.keyOf('last', name), head, line);
  }

  /** Keeps the parts of a module that was made and is right. */
  put(/** @type {Module} */ module) {
    const { mediaType, text, parts } = module;
    if (!parts) return;
    const key = this.keyOf(mediaType, text);
    this.made += 1;
    module.key = key;
    this.parts.set(key, { parts, round: this.round });
    if (!this.folder) return;
    parts.shape = shapeOf(parts);
    const { source, tables, ...head } = parts;
    this.folder.put(key, { ...head, length: Buffer.byteLength(source) }, source + JSON.stringify(tables));
  }
}

/** @type {string | null} */
let toolHash = null;

/** A hash of when the sources of this tool were written, which change what is made though its version stays. */
function hashOfTool() {
  if (toolHash) return toolHash;
  /** @type {(folder: string) => string[]} */
  const below = (folder) => fs.readdirSync(folder, { withFileTypes: true }).flatMap((it) => {
    const name = path.join(folder, it.name);
    return it.isDirectory() ? below(name) : name.endsWith('.js') ? [name] : [];
  });
  const stampOf = (/** @type {string} */ name) => {
    const { mtimeMs, ctimeMs, size } = fs.statSync(name);
    return `${name} ${mtimeMs} ${ctimeMs} ${size}`;
  };
  toolHash = hashOf(below(path.resolve(__dirname, '..')).sort().map(stampOf).join('\n'));
  return toolHash;
}

/** Which compiler makes trees: its version, and how long its file is. It is loaded where the folder does not say it of the compilers that are there. */
function compilerFor(/** @type {Folder | null} */ folder) {
  const candidates = candidateFiles().map((file) => ({ file, ...fs.statSync(file) }));
  const key = hashOf(candidates.map(({ file, mtimeMs, size }) => `${file} ${mtimeMs} ${size}`).join('\n'));
  const known = folder && folder.get(key);
  if (known) return known.compiler;
  const { version } = require('../compiler/typescript.js');
  const compiler = `${version} ${candidates.map(({ size }) => size).join(' ')}`;
  if (folder) folder.put(key, { compiler });
  return compiler;
}

/**
 * What is kept of sources for a command. Under other rules other trees are made.
 *
 * @param {import('../cli/types').Options} options
 * @param {Record<string, string | undefined>} environment
 */
function keptFor({ noCache, rules = '' }, environment) {
  const folder = noCache ? null : folderFor(environment);
  keepIn(folder);
  /** @type {string | null} */
  let maker = null;
  /** @type {Kept} */
  const kept = new Kept(folder, () => {
    if (!kept.folder) return '';
    maker = maker || `${hashOfTool()} ${compilerFor(kept.folder)} ${rules}`;
    return maker;
  });
  return kept;
}

module.exports = { Kept, keptFor };
