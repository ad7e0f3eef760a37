'use strict';
// Which compiler is taken: that of the package, that of the variable TYPESCRIPT, or that of the system.
const fs = require('fs');
const path = require('path');
const { compilerOf } = require('./code-cache.js');

/** A compiler: `ts` has at least what reads files, and `whole()` is the same object with all else. */
/** @typedef {{ ts: typeof ts, whole: () => typeof ts }} Compiler */

const DEBIAN = '/usr/share/nodejs/typescript';
// The folder whose own compiler comes first, and the one where compiled code is kept; null where none is.
/** @type {{ own: string | null, cache: string | null }} */
const chosen = { own: null, cache: null };
// From how many bytes on a file is loaded with compiled code.
const LARGE = 1 << 20;
// The code of the error that there is no compiler which serves.
const NO_COMPILER = 'NO_COMPILER';

/** Has the compiler looked for in a folder's `node_modules` first. Its code is run. */
function lookIn(/** @type {string} */ folder) {
  chosen.own = path.join(folder, 'node_modules', 'typescript');
}

/** Whether a compiler is of a version or a newer one. */
function isVersionFrom(/** @type {string} */ version, /** @type {number} */ major, /** @type {number} */ minor) {
  const [ownMajor, ownMinor] = version.split('.').map(Number);
  return ownMajor > major || (ownMajor === major && ownMinor >= minor);
}

/** Whether a compiler has what is asked of it here. */
function isUsable(/** @type {{ version?: unknown, createSourceFile?: unknown }} */ ts) {
  return typeof ts.version === 'string' && typeof ts.createSourceFile === 'function' && isVersionFrom(ts.version, 4, 8);
}

/** Has compiled code of the compiler kept in a folder. */
function keepIn(/** @type {string | null} */ folder) {
  chosen.cache = folder;
}

/** Whether a compiler can be found by a name. */
function isThere(/** @type {string} */ name) {
  try {
    return Boolean(require.resolve(name));
  } catch {
    return false;
  }
}

/** @type {Map<string, Compiler>} */
const compilers = new Map();

/** @returns {Compiler | null} */
function loaded(/** @type {string} */ name) {
  try {
    const file = require.resolve(name);
    const small = fs.statSync(file).size > LARGE ? null : require(file);
    const found = compilers.get(file) || (small ? { ts: small, whole: () => small } : compilerOf(file, chosen.cache));
    compilers.set(file, found);
    return found;
  } catch (error) {
    if (/** @type {NodeJS.ErrnoException} */ (error).code !== 'MODULE_NOT_FOUND') throw error;
    return null;
  }
}

/** Refuses a variable TYPESCRIPT that names no compiler. */
function refuseWrongVariable() {
  const named = process.env.TYPESCRIPT;
  if (!named || isThere(named)) return;
  throw Object.assign(new Error(`there is no TypeScript in ${named}, which the variable TYPESCRIPT names`), { status: 2, code: NO_COMPILER });
}

/**
 * The compiler, or an error that says how to get one. One of the package that does not serve is passed over.
 *
 * @returns {Compiler}
 */
function loadCompiler() {
  refuseWrongVariable();
  const own = chosen.own && loaded(chosen.own);
  if (own && isUsable(own.ts)) return own;
  const found = [process.env.TYPESCRIPT || [], 'typescript', DEBIAN].flat().find(isThere);
  const compiler = found === undefined ? null : loaded(found);
  if (compiler && isUsable(compiler.ts)) return compiler;
  const lacks = compiler ? `TypeScript ${compiler.ts.version} does not serve: 4.8 or newer is needed` : 'TypeScript is missing';
  throw Object.assign(new Error(`${lacks}; on Debian: apt-get install -y node-typescript`), { status: 2, code: NO_COMPILER });
}

/** The files of the compilers that are there, in the order in which they are looked at. */
function candidateFiles() {
  return [chosen.own || [], process.env.TYPESCRIPT || [], 'typescript', DEBIAN].flat().filter(isThere).map((name) => require.resolve(name));
}

module.exports = { NO_COMPILER, candidateFiles, chosen, isVersionFrom, keepIn, loadCompiler, lookIn, refuseWrongVariable };
