'use strict';
// What a reading asks of the file system, and what it was answered, so that a later run knows whether it would read the same.
const crypto = require('crypto');
const fs = require('fs');
const path = require('path');

/** @typedef {'kind' | 'real' | 'names' | 'text'} Question */
/** @typedef {[question: Question, file: string, answer: string]} Asked */

const original = { statSync: fs.statSync, realpathSync: fs.realpathSync, readdirSync: fs.readdirSync, readFileSync: fs.readFileSync, openSync: fs.openSync };

const hashOf = (/** @type {crypto.BinaryLike} */ data) => crypto.createHash('sha256').update(data).digest('base64');

/** What stands at a path by its stats. */
const kindOf = (/** @type {{ isFile(): boolean, isDirectory(): boolean, isSymbolicLink(): boolean }} */ it) => (
  it.isFile() ? 'file' : it.isDirectory() ? 'folder' : it.isSymbolicLink() ? 'link' : 'other');

/**
 * The answers, each by the system's own calls.
 *
 * @type {Record<Question, (file: string) => string>}
 */
const ANSWERS = {
  kind: (file) => kindOf(original.statSync(file)),
  real: (file) => original.realpathSync.native(file),
  names: (file) => hashOf(original.readdirSync(file, { withFileTypes: true }).map((it) => `${it.name}\n${kindOf(it)}`).join('\n')),
  text: (file) => (original.statSync(file).isFile() ? hashOf(/** @type {Uint8Array} */ (original.readFileSync(file))) : 'other'),
};

/** The answer to a question, of which an error is one too. */
function answerTo(/** @type {Question} */ question, /** @type {string} */ file) {
  try {
    return ANSWERS[question](file);
  } catch (error) {
    return `!${/** @type {NodeJS.ErrnoException} */ (error).code}`;
  }
}

/** Whether the system answers as it did. */
function isSame(/** @type {Asked[]} */ asked) {
  return asked.every(([question, file, answer]) => answerTo(question, file) === answer);
}

/**
 * Which questions a call of the file system asks of the path that it is handed.
 *
 * @type {[name: string, questions: Question[]][]}
 */
const CALLS = [
  ['statSync', ['kind']], ['lstatSync', ['kind', 'real']], ['existsSync', ['kind']], ['accessSync', ['kind']], ['openSync', ['kind']], ['realpathSync', ['real']],
  ['readdirSync', ['names']],
];

// What another process does not look into, and up to how many folders and configurations are remembered of what it reads.
const PASSED_OVER = new Set(['node_modules', '.git']);
const MOST = 4000;
// What it reads beside sources.
const CONFIGURATION = /\.jsonc?$|^pnpm-workspace\.yaml$/;
// For how many milliseconds the time of a file may lie behind the clock.
const LAG = 20;

/** Whether something was as it is before a time. */
function isOlder(/** @type {string} */ file, /** @type {number} */ time) {
  const found = fs.lstatSync(file, { throwIfNoEntry: false });
  return Boolean(found && Math.max(found.mtimeMs, found.ctimeMs) < time - LAG);
}

/** What is asked while some calls are made. `without` are folders of which nothing is remembered, as that of the tool. */
class Trace {
  constructor(/** @type {string[]} */ without) {
    this.without = without.map((it) => it + path.sep);
    /** @type {Map<string, Asked>} */
    this.all = new Map();
    /** @type {Map<number, string>} */
    this.opened = new Map();
    /** Whether all that was read is remembered as it was read. */
    this.isWhole = true;
  }

  /** @returns {Asked[]} */
  get asked() {
    return [...this.all.values()];
  }

  /** Remembers a question with its answer, which is asked for where it is not known yet. */
  note(/** @type {Question} */ question, /** @type {unknown} */ of, answer = answerTo) {
    if (typeof of !== 'string') return;
    const file = path.resolve(of);
    const key = `${question} ${file}`;
    if (this.all.has(key) || this.without.some((it) => file.startsWith(it))) return;
    this.all.set(key, [question, file, answer(question, file)]);
  }

  /**
   * Remembers what another process that began at a time may have asked of a folder: which names stand there, where links lead, and configurations. The sources that it
   * has read are asked for already.
   */
  beside(/** @type {string} */ root, /** @type {number} */ begun) {
    const waiting = [root];
    let left = MOST;
    this.note('real', root);
    for (let folder = waiting.pop(); folder !== undefined && left > 0; folder = waiting.pop()) {
      this.note('names', folder);
      left -= 1;
      for (const it of original.readdirSync(folder, { withFileTypes: true })) {
        const file = path.join(folder, it.name);
        if (it.isDirectory() && !PASSED_OVER.has(it.name)) waiting.push(file);
        else if (it.isSymbolicLink()) this.noteLink(file);
        else if (CONFIGURATION.test(it.name)) this.note('text', file);
        else continue;
        left -= 1;
      }
    }
    const isSettled = () => this.asked.every(([question, file, answer]) => question === 'kind' || answer.startsWith('!') || isOlder(file, begun));
    this.isWhole = this.isWhole && left > 0 && isSettled();
  }

  noteLink(/** @type {string} */ file) {
    this.note('real', file);
    this.note('kind', file);
    if (CONFIGURATION.test(file)) this.note('text', file);
  }

  /**
   * Makes a call that reads, during which the calls of the file system are listened to.
   *
   * @template T
   * @param {() => T} call
   * @returns {T}
   */
  during(call) {
    /** @type {Record<string, Function>} */
    const known = {};
    const system = /** @type {Record<string, Function>} */ (/** @type {unknown} */ (fs));
    const trace = this;
    const replace = (/** @type {string} */ name, /** @type {(own: Function, words: unknown[]) => unknown} */ made) => {
      const own = system[name];
      known[name] = own;
      system[name] = Object.assign((/** @type {unknown[]} */ ...words) => made(own, words), own, { native: (/** @type {unknown[]} */ ...words) => made(/** @type {Function & { native: Function }} */ (own).native, words) });
    };
    for (const [name, questions] of CALLS) {
      replace(name, (own, words) => {
        for (const question of questions) trace.note(question, words[0]);
        const found = own(...words);
        if (name === 'openSync') trace.opened.set(Number(found), String(words[0]));
        return found;
      });
    }
    replace('readFileSync', (own, words) => {
      const file = typeof words[0] === 'number' ? trace.opened.get(words[0]) : words[0];
      const found = own(...words);
      trace.note('text', file, () => hashOf(found));
      return found;
    });
    try {
      return call();
    } finally {
      Object.assign(system, known);
    }
  }
}

module.exports = { Trace, isSame };
