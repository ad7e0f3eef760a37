'use strict';
// Whole answers that are kept between runs: what a check wrote, by all that it was asked and by all that it read.
const crypto = require('crypto');
const path = require('path');
const { chosen, candidateFiles } = require('../compiler/find.js');
const { Trace, isSame } = require('../package/trace.js');
const { seconds } = require('../cli/progress.js');
const { VERSION } = require('../cli/installed.js');
const { programStamp, sourceProgramFile, stampOf } = require('./program.js');

/** @typedef {import('../cli/types').Context} Context */
/** @typedef {import('../cli/types').Options} Options */
/** @typedef {import('../cli/types').Target} Target */
/** @typedef {import('../package/cache.js').Kept} Kept */
/** @typedef {{ asked: import('../package/trace.js').Asked[], written: [stream: 'out' | 'err', text: string][], status: number }} Answer */

const TOOL = path.resolve(__dirname, '../..');
// What stands for the seconds of a run in what is kept.
const SECONDS = '\0seconds\0';

const isAround = (/** @type {string} */ one, /** @type {string} */ other) => one === other || other.startsWith(`${one}${path.sep}`);

/** The answer of one command line. */
class Whole {
  constructor(/** @type {Kept} */ kept, /** @type {string} */ key, /** @type {string[]} */ without, /** @type {Context} */ context) {
    this.kept = kept;
    this.key = key;
    this.context = context;
    this.trace = new Trace(without);
    /** @type {Answer['written']} */
    this.written = [];
  }

  /**
   * What may be kept of a command line: null where no folder keeps anything, or where more than the folders says what is told.
   *
   * @returns {Whole | null}
   */
  static of(/** @type {Target[]} */ targets, /** @type {Options} */ options, /** @type {Context} */ context) {
    const { kept } = context;
    const isOpen = options.watch || options.verify || options.fix || options.baseline || options.format === 'sarif' || options.texts;
    if (!kept || !kept.folder || isOpen) return null;
    const without = [TOOL, kept.folder.folder, ...candidateFiles().map((file) => path.dirname(path.dirname(file)))];
    if (targets.some(({ dir }) => without.some((it) => isAround(it, dir) || isAround(dir, it)))) return null;
    const stamp = programStamp(context.environment);
    if (!stamp) return null;
    try {
      const asked = [
        kept.maker(), VERSION, stamp, stampOf(sourceProgramFile(context.environment)), process.version, context.cwd, targets.map((it) => ({ ...it, only: [...it.only || []] })), { ...options, kept: null }, chosen.own, context.paint('red', ''), context.out.columns,
        context.out.isTTY,
      ];
      return new Whole(kept, crypto.createHash('sha256').update(`whole ${JSON.stringify(asked)}`).digest('hex'), without, context);
    } catch {
      // There is no compiler, which the run itself says.
      return null;
    }
  }

  /** Writes what is kept, and answers the status; null where nothing is kept that holds. */
  told() {
    /** @type {Answer | null} */
    const found = this.kept.folder && this.kept.folder.get(this.key);
    if (!found || !isSame(found.asked)) return null;
    for (const [stream, text] of found.written) this.context[stream].write(this.timed(text));
    return found.status;
  }

  timed(/** @type {string} */ text) {
    return text.includes(SECONDS) ? text.replaceAll(SECONDS, seconds(this.context)) : text;
  }

  /**
   * The context of a run that is listened to.
   *
   * @returns {Context}
   */
  get listening() {
    /** @type {(stream: 'out' | 'err') => import('../cli/types').Output} */
    const listened = (stream) => {
      const own = this.context[stream];
      return {
        isTTY: own.isTTY,
        columns: own.columns,
        write: (text) => {
          this.written.push([stream, text]);
          return own.write(this.timed(text));
        },
      };
    };
    return { ...this.context, out: listened('out'), err: listened('err'), clock: SECONDS, reading: (call) => this.trace.during(call), beside: (folder, begun) => this.trace.beside(folder, begun) };
  }

  /** Keeps what was written, where nothing kept the folders from being read. */
  keep(/** @type {number} */ status) {
    const { folder } = this.kept;
    if (status > 1 || !folder || !this.trace.isWhole) return;
    this.kept.made += 1;
    folder.put(this.key, { asked: this.trace.asked, written: this.written, status });
  }
}

module.exports = { Whole };
