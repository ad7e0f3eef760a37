'use strict';
// Goes on checking folders: again whenever something changes in a folder that something was read from.
const fs = require('fs');
const path = require('path');
const { shownName } = require('../program/answer.js');
const { isInside, mediaTypeOf } = require('../package/files.js');
const { FOLDER } = require('../program/run.js');

/** @typedef {import('../cli/types').Context} Context */
/** @typedef {import('../cli/types').Result} Result */
/** @typedef {import('../cli/types').Target} Target */
/** @typedef {import('fs').FSWatcher} FSWatcher */

// How long nothing has to change before it is checked again, in milliseconds: an editor writes a file in several steps.
const QUIET = 30;

/**
 * The nearest folder above a path that is there, within a folder.
 *
 * @returns {string}
 */
function thereAbove(/** @type {string} */ root, /** @type {string} */ at) {
  if (!isInside(root, at)) return root;
  return fs.existsSync(at) ? at : thereAbove(root, path.dirname(at));
}

/** The folders that the answer for a folder depends on: of what was read, of what was looked for, and those between. */
function foldersOf(/** @type {Result} */ { dir, world }) {
  const found = new Set([dir]);
  const add = (/** @type {string} */ at) => {
    for (let folder = thereAbove(dir, at); isInside(dir, folder); folder = path.dirname(folder)) found.add(folder);
  };
  if (!world) return found;
  for (const { path: file } of [...world.info.modules, ...world.info.scripts, ...world.info.jsonModules]) add(path.dirname(file));
  for (const { path: from, text } of world.info.missing) add(path.dirname(path.resolve(path.dirname(from), text)));
  for (const { dir: own } of world.info.packages) add(own);
  return found;
}

/** Watches folders, each by itself, and calls with the paths in which something changes. */
class Watcher {
  constructor(/** @type {(at: string) => unknown} */ onChange) {
    this.onChange = onChange;
    /** @type {Map<string, fs.FSWatcher>} */
    this.watched = new Map();
  }

  /** Takes these folders in place of those before. */
  take(/** @type {Set<string>} */ folders) {
    for (const [folder, watch] of this.watched) {
      if (folders.has(folder)) continue;
      watch.close();
      this.watched.delete(folder);
    }
    for (const folder of folders) if (!this.watched.has(folder)) this.add(folder);
  }

  add(/** @type {string} */ folder) {
    try {
      const watch = fs.watch(folder, (kind, name) => this.onChange(name === null ? folder : path.join(folder, String(name))));
      const forget = () => this.watched.delete(folder);
      watch.on('error', forget);
      this.watched.set(folder, watch);
    } catch (error) {
      // A folder that went away is noticed by the one above it.
      if (/** @type {NodeJS.ErrnoException} */ (error).code !== 'ENOENT') throw error;
    }
  }
}

/** Waits until something changes and nothing has for a moment, and answers the paths. */
class Changes {
  constructor() {
    /** @type {Set<string>} */
    this.paths = new Set();
    /** @type {NodeJS.Timeout | undefined} */
    this.timer = undefined;
    /** @type {(value?: unknown) => void} */
    this.wake = () => {};
  }

  add(/** @type {string} */ at) {
    this.paths.add(at);
    clearTimeout(this.timer);
    this.timer = setTimeout(() => this.wake(), QUIET);
  }

  async next() {
    if (!this.paths.size) await new Promise((resolve) => (this.wake = resolve));
    const found = [...this.paths];
    this.paths.clear();
    return found;
  }
}

/** Whether a change may change the answer: of a module, of a configuration, or of a folder. */
function isRelevant(/** @type {string} */ at, /** @type {Map<string, FSWatcher>} */ watched) {
  const name = path.basename(at);
  if (name.startsWith('.') || name.startsWith(FOLDER)) return false;
  if (watched.has(at) || mediaTypeOf(at) !== 'Unknown') return true;
  const found = fs.statSync(at, { throwIfNoEntry: false });
  return Boolean(found && found.isDirectory());
}

/** What changed, as a line before what is reported. */
function heading(/** @type {string[]} */ paths, /** @type {Context} */ { cwd }) {
  const names = paths.map((each) => shownName(each, cwd)).sort();
  const shown = names.length > 3 ? [...names.slice(0, 3), '..'] : names;
  return `${shown.join(', ')} changed`;
}

/**
 * Checks by `round(context)` now and whenever something changes; it comes to no end. Of text a line says what changed.
 *
 * @returns {Promise<number>}
 */
async function watch(/** @type {Target[]} */ targets, /** @type {Context} */ context, /** @type {boolean} */ isText, /** @type {(context: Context) => Promise<{ results: Result[] }>} */ round) {
  const changes = new Changes();
  /** @type {Watcher} */
  const watcher = new Watcher((at) => isRelevant(at, watcher.watched) && changes.add(at));
  watcher.take(new Set(targets.map(({ dir }) => dir)));
  for (;;) {
    if (context.kept) context.kept.begin();
    const { results } = await round(context.again());
    watcher.take(new Set(results.flatMap((each) => [...foldersOf(each)])));
    const paths = await changes.next();
    if (isText) context.err.write(`\n${heading(paths, context)}\n`);
  }
}

module.exports = { watch };
