'use strict';
// The command `serve`: answers one folder after another in one process, which keeps the compiler. The packages may be strangers': no compiler of theirs is run, no
// comment of theirs allows anything, and nothing is kept of them.
//
// A line in is `{"dir": FOLDER}`, with `"want": "skeletons"` or `"declarations"` where these are wanted too. The line out for it has `status` and `messages`, whose
// files are named from FOLDER, `said`, which says why nothing is answered, and `modules`, where they were wanted: `path`, `text` and `isPreview` of each.
const fs = require('fs');
const path = require('path');
const readline = require('readline');

/** @typedef {import('../cli/types').Options} Options */

const WANTS = [undefined, 'skeletons', 'declarations'];
const REFUSED = { status: 2, messages: [], said: 'a line is {"dir": FOLDER}, with "want": "skeletons" or "declarations"' };

/** What a line asks for, or null. */
function askedBy(/** @type {string} */ line) {
  try {
    const { dir, want } = JSON.parse(line);
    return typeof dir === 'string' && WANTS.includes(want) ? { dir, want } : null;
  } catch {
    return null;
  }
}

/** @typedef {import('../cli/types').KnownError} KnownError */

/** The answer to a line. */
async function answerTo(/** @type {{ dir: string, want?: string }} */ { dir, want }) {
  const { INTERNAL } = require('../cli/exit.js');
  const { check, skeleton } = require('../api/index.js');
  const options = { ownCompiler: false, cache: false, comments: false, declarations: want === 'declarations' };
  try {
    const { status, reason, messages, modules } = /** @type {any} */ (await (want ? skeleton : check)(dir, options));
    return { status, messages, said: reason || '', ...(want ? { modules } : {}) };
  } catch (error) {
    const { status, message } = /** @type {KnownError} */ (error);
    return { status: status || INTERNAL, messages: [], said: message };
  }
}

// How many folders are read together, where their lines are there at once.
const MOST = 32;

/** Lines of the standard input, as many as are there, up to some. */
class Waiting {
  constructor() {
    /** @type {string[]} */
    this.lines = [];
    this.isEnded = false;
    this.wake = () => {};
    this.input = readline.createInterface({ input: process.stdin });
    this.input.on('line', (line) => {
      this.lines.push(line);
      if (this.lines.length >= MOST) this.input.pause();
      this.wake();
    });
    this.input.on('close', () => {
      this.isEnded = true;
      this.wake();
    });
  }

  /** The next lines; none where the input has ended. */
  async next() {
    if (this.lines.length < MOST) this.input.resume();
    while (!this.lines.length && !this.isEnded) {
      await new Promise((resolve) => {
        this.wake = () => resolve(undefined);
      });
    }
    return this.lines.splice(0, MOST);
  }
}

/** The whole paths of the folders among those that are asked for. */
function foldersOf(/** @type {({ dir: string } | null)[]} */ all) {
  const paths = all.flatMap((it) => (it ? [path.resolve(it.dir)] : []));
  return [...new Set(paths)].filter((it) => fs.statSync(it, { throwIfNoEntry: false })?.isDirectory());
}

async function serve(/** @type {string[]} */ words, /** @type {import('../cli/types').Options} */ options, /** @type {import('../cli/types').Context} */ { out, environment }) {
  const { readAhead } = require('../program/by-source.js');
  const { sourceProgramFile } = require('../program/program.js');
  const program = sourceProgramFile(environment);
  const waiting = new Waiting();
  for (let lines = await waiting.next(); lines.length; lines = await waiting.next()) {
    const all = lines.map(askedBy);
    const folders = foldersOf(all);
    if (program && folders.length > 1) await readAhead(program, folders);
    for (const asked of all) out.write(`${JSON.stringify(asked ? await answerTo(asked) : REFUSED)}\n`);
  }
  return 0;
}

module.exports = { serve };
