'use strict';
// The program's last answer for a folder, with the shape of what it was sent. Where the shape is as it was, the program is not asked again.
const crypto = require('crypto');
const { answersAt, answersIn } = require('./answers.js');
const { mover } = require('./places.js');
const { programStamp } = require('./program.js');

/** @typedef {import('./types').Request} Request */
/** @typedef {import('./types').Answer} Answer */
/** @typedef {import('./types').Info} Info */
/** @typedef {import('../package/cache.js').Kept} Kept */
/** @typedef {{ shape: string, keys: Record<string, string>, answers: import('./types').AnswerAt[] }} Last what was sent by its shape, the keys of its modules, and where the answers stand */
/** @typedef {{ dir: string, info: Info, name: string }} Asked a folder, and what of it is asked for */

class LastAnswer {
  constructor(/** @type {Kept} */ kept, /** @type {string} */ name, /** @type {string} */ shape, /** @type {Record<string, string>} */ keys) {
    this.kept = kept;
    this.name = name;
    this.shape = shape;
    this.keys = keys;
  }

  /**
   * That of a request, which is made of a folder; null where nothing is kept, or not of each module.
   *
   * @param {Asked} asked
   * @param {Request} request
   * @param {Kept | null | undefined} kept
   * @param {Record<string, string | undefined>} environment
   */
  static of({ dir, info, name }, { graph, workspace_members, pending }, kept, environment) {
    const stamp = kept && kept.folder ? programStamp(environment) : null;
    const sent = info.modules.flatMap(({ specifier, key, parts }) => (parts ? { specifier, key, shape: parts.shape } : []));
    if (!kept || !stamp || sent.some(({ key, shape }) => !key || !shape)) return null;
    const plain = info.jsonModules.map(({ specifier, text }) => [specifier, Buffer.byteLength(text)]);
    const all = [kept.maker(), stamp, graph, workspace_members, pending, plain, sent.map(({ specifier, shape }) => [specifier, shape])];
    const shape = crypto.createHash('sha256').update(JSON.stringify(all)).digest('base64');
    return new LastAnswer(kept, JSON.stringify([name, dir, workspace_members]), shape, Object.fromEntries(sent.map(({ specifier, key = '' }) => [specifier, key])));
  }

  /**
   * What the program would answer, or null where that is not known.
   *
   * @returns {Answer[] | null}
   */
  answers() {
    const found = this.kept.lastOf(this.name);
    /** @type {Last | null} */
    const last = found && found.head;
    if (!found || !last || last.shape !== this.shape) return null;
    /** @type {Map<string, <T>(answer: T) => T>} */
    const movers = new Map();
    for (const [specifier, key] of Object.entries(this.keys)) {
      const before = last.keys[specifier];
      if (before === key) continue;
      const [from, to] = [before, key].map((it) => this.kept.partsOf(it));
      if (!from || !to) return null;
      movers.set(specifier, mover(from, to));
    }
    /** @type {string | null} */
    let line = null;
    const lineOf = () => {
      line = line || found.rest.toString();
      return line;
    };
    return answersAt(last.answers, lineOf, movers);
  }

  keep(/** @type {string} */ line) {
    const answers = answersIn(line);
    if (answers) this.kept.putLast(this.name, { shape: this.shape, keys: this.keys, answers }, line);
  }
}

module.exports = { LastAnswer };
