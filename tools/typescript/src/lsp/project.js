'use strict';
// One package in the editor: checked behind each change, by the texts of open documents.
const fs = require('fs');
const path = require('path');
const { resultOf } = require('../api/check.js');
const { Progress } = require('../cli/progress.js');
const { NAMES } = require('../cli/targets.js');
const { FIXABLE } = require('../messages/codes.js');
const { keptFor } = require('../package/cache.js');
const { EITHER } = require('../program/program.js');
const { diagnosticsOf } = require('./diagnostics.js');
const { editsBetween } = require('./documents.js');

/** @typedef {import('./types').Host} Host */
/** @typedef {import('../cli/types').Result} Result */
/** @typedef {import('../messages/types').Message} Message */

// How long nothing has to be typed before the edited documents are checked, and before the whole package is, in milliseconds.
const QUIET = 30;
const SETTLED = 300;

class Project {
  constructor(/** @type {string} */ dir, /** @type {Host} */ host) {
    this.dir = dir;
    this.host = host;
    /** @type {Message[]} */
    this.messages = [];
    /** @type {AbortController | null} */
    this.running = null;
    // The result of the last check of the whole package, and the documents that were edited since the last check.
    /** @type {Result | null} */
    this.whole = null;
    /** @type {Set<string>} */
    this.edited = new Set();
    /** @type {NodeJS.Timeout | undefined} */
    this.timer = undefined;
    this.kept = keptFor(this.options, process.env);
  }

  get options() {
    const { allow, rules } = this.host.settings;
    return { allow, rules, format: 'json', reader: EITHER };
  }

  context(/** @type {AbortSignal} */ signal) {
    return { cwd: this.dir, environment: process.env, progress: new Progress({ write() {} }, false), isCommand: true, signal };
  }

  /** Checks the package once nothing is typed for a moment. `file` is the document that changed; without one anything may have. */
  checkSoon(/** @type {string | undefined} */ file = undefined) {
    if (file === undefined) this.whole = null;
    else this.edited.add(file);
    this.later(QUIET);
  }

  later(/** @type {number} */ delay) {
    clearTimeout(this.timer);
    this.timer = setTimeout(() => this.check().catch((error) => this.host.log(`${this.dir}: ${error.stack}`, 1)), delay);
  }

  /**
   * Checks the package; a check that is still at work is given up. Behind an edit the compiler's reader looks at the documents that were edited first, beside what
   * the last whole check said of the others, and at all of the package a moment later. The program reads all of it at once.
   */
  async check() {
    if (this.running) this.running.abort();
    const controller = new AbortController();
    this.running = controller;
    const begun = process.hrtime.bigint();
    const treesOf = this.whole && this.edited.size ? new Set(this.edited) : undefined;
    this.edited.clear();
    this.kept.begin();
    // The texts of now: an edit may come while the program is at work.
    const asked = { ...this.options, texts: new Map(this.host.texts), kept: this.kept, treesOf };
    const result = await resultOf({ dir: this.dir, exports: undefined }, asked, { context: this.context(controller.signal), baseline: null });
    if (controller.signal.aborted) {
      for (const file of treesOf || []) this.edited.add(file);
      return;
    }
    this.running = null;
    const isWhole = !treesOf || Boolean(result.world && result.world.isBySource);
    if (isWhole) this.whole = result;
    else this.later(SETTLED);
    this.show(isWhole ? result : this.merged(result, treesOf), begun);
  }

  /** The messages of files that were looked at, and what was last said of the others. */
  merged(/** @type {Result} */ result, /** @type {Set<string>} */ files) {
    const isOf = (/** @type {Message} */ { file }) => Boolean(file) && files.has(path.resolve(this.dir, file || ''));
    const known = this.whole ? this.whole.messages : [];
    return { ...result, messages: [...result.messages.filter(isOf), ...known.filter((it) => !isOf(it))] };
  }

  show(/** @type {Result} */ result, /** @type {bigint} */ begun) {
    const { thrown, messages } = result;
    this.messages = messages;
    this.host.publish(this.dir, diagnosticsOf(result, this.configuration()));
    if (thrown) this.host.log(`${this.dir}: ${thrown.message}`, thrown.status === 2 ? 3 : 1);
    this.host.log(`${this.dir}: ${messages.length} messages in ${Number((process.hrtime.bigint() - begun) / 1000000n)} ms`);
  }

  /** The configuration of the package, or the folder where it has none. */
  configuration() {
    const name = NAMES.find((each) => fs.existsSync(path.join(this.dir, each)));
    return name ? path.join(this.dir, name) : this.dir;
  }

  /** The messages of a file that a written type may answer. */
  fixable(/** @type {string} */ file) {
    return this.messages.flatMap(({ lines, start, end, ...it }) => {
      const isFixable = it.file && FIXABLE.has(it.code) && path.resolve(this.dir, it.file) === file;
      return isFixable && lines && start !== undefined && end !== undefined ? { code: it.code, lines, start, end } : [];
    });
  }

  /** The edits that write the missing types of a file, or of one place in it. The compiler runs in a thread of its own. */
  async fixes(/** @type {string} */ file, /** @type {number | undefined} */ start, /** @type {AbortSignal} */ signal) {
    const { fixed } = require('../compiler/thread.js');
    const { texts } = this.host;
    const { readText } = require('../package/files.js');
    const open = texts.get(file);
    const before = open === undefined ? readText(file).text : open;
    const { texts: made } = await fixed(this.dir, { ...this.options, texts, within: { files: new Set([file]), start } }, this.context(signal));
    const after = made.get(file);
    return after === undefined ? [] : editsBetween(before, after);
  }

  close() {
    clearTimeout(this.timer);
    if (this.running) this.running.abort();
    this.host.publish(this.dir, new Map());
  }
}

module.exports = { Project };
