'use strict';
// What the words of `check` name: folders of packages, and files that are checked as entry points of the packages that they lie in.
const fs = require('fs');
const path = require('path');
const { UsageError } = require('./args.js');

/** @typedef {import('./types').Options} Options */

// The names of configuration files, the first of which counts most.
const NAMES = ['deno.json', 'deno.jsonc', 'jsr.json', 'jsr.jsonc', 'package.json'];

/** The nearest folder above a file that has a configuration, else the file's own. */
function packageAround(/** @type {string} */ file) {
  const own = path.dirname(file);
  for (let folder = own; ; folder = path.dirname(folder)) {
    if (NAMES.some((name) => fs.existsSync(path.join(folder, name)))) return folder;
    if (path.dirname(folder) === folder) return own;
  }
}

/** What stands at a path, or null. */
function statOf(/** @type {string} */ file) {
  try {
    return fs.statSync(file);
  } catch {
    return null;
  }
}

/** The folder and the file of a word; of a folder no file. */
function placeOf(/** @type {string} */ word, /** @type {string} */ cwd) {
  const at = path.resolve(cwd, word);
  const found = statOf(at);
  if (!found) throw new UsageError(`there is no folder and no file ${word}`);
  if (found.isDirectory()) return { dir: at, file: null };
  if (!found.isFile()) throw new UsageError(`${word} is no regular file`);
  return { dir: packageAround(at), file: at };
}

/** The files of a folder as entry points. */
function exportsOf(/** @type {string} */ dir, /** @type {string[]} */ files) {
  const named = files.map((file) => `./${path.relative(dir, file).split(path.sep).join('/')}`);
  return Object.fromEntries(named.map((it, at) => [at === 0 ? '.' : it, it]));
}

/** The packages of some files, each with its files. */
function packagesOfFiles(/** @type {ReturnType<typeof placeOf>[]} */ places) {
  const folders = new Map();
  for (const { dir, file } of places) {
    if (!file) throw new UsageError(`--only goes with files, and ${dir} is a folder`);
    folders.set(dir, (folders.get(dir) || new Set()).add(file));
  }
  return [...folders].map(([dir, only]) => ({ dir, exports: undefined, only }));
}

/**
 * What is to be checked, in the order of the words: `{dir, exports}`, each folder once. `exports` are the entry points that files name; undefined where the
 * folder itself is named. With `--only` files name their packages, whose messages are reported of `only` these files.
 */
function targetsOf(/** @type {string[]} */ words, /** @type {Options} */ options, /** @type {string} */ cwd) {
  const places = words.map((word) => placeOf(word, cwd));
  if (options.only) return packagesOfFiles(places);
  if (options.exports !== undefined && places.some(({ file }) => file)) throw new UsageError('--exports goes with a folder, and a file is named');
  if (options.reader === 'source' && places.some(({ file }) => file)) throw new UsageError('--reader source goes with folders, and a file is named');
  const folders = new Map();
  for (const { dir, file } of places) {
    const before = folders.get(dir);
    if (!file) folders.set(dir, null);
    else if (before !== null) folders.set(dir, [...(before || []), file]);
  }
  if (folders.size > 1 && (options.name || options.version || options.exports !== undefined)) {
    throw new UsageError('--name, --version and --exports are of one package, and several are named');
  }
  return [...folders].map(([dir, files]) => ({ dir, exports: files ? exportsOf(dir, [...new Set(files)]) : options.exports }));
}

module.exports = { NAMES, packageAround, targetsOf };
