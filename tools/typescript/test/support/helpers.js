'use strict';
// What the tests share: the command line in this process, comparisons, folders that are removed again, and where things lie.
const childProcess = require('child_process');
const fs = require('fs');
const os = require('os');
const path = require('path');
const { test } = require('node:test');
const { main } = require('../../src/cli/main.js');
const { candidateFiles } = require('../../src/compiler/find.js');

/** @typedef {[name: string, body: () => void | Promise<void>]} Case */
/** @typedef {string | Buffer | { linkTo: string } | { pipe: true } | null} Content a file, a link, a pipe, or none */
/** @typedef {{ status: number, out: string, err: string }} Ran */

// Nothing is kept where the user's own is kept.
const kept = fs.mkdtempSync(path.join(os.tmpdir(), 'fast-check-cache-'));
process.env.XDG_CACHE_HOME = kept;
process.on('exit', () => fs.rmSync(kept, { recursive: true, force: true }));

const TOP = path.resolve(__dirname, '../../../..');
const TESTS = path.resolve(__dirname, '..');
const PACKAGES = path.join(TESTS, 'packages');
const LAUNCHER = path.join(TOP, 'fast-check-ts');
const DOCS = path.join(TOP, 'docs');
// Where the compiler of these tests lies.
const [COMPILER] = candidateFiles();

/** A stream that keeps what is written. */
function keeper(isTTY = false) {
  return { text: '', isTTY, columns: 80, write(/** @type {string} */ part) { this.text += part; return true; } };
}

/**
 * Runs the command line in this process.
 *
 * @param {string[]} words
 * @param {{ cwd?: string, environment?: NodeJS.ProcessEnv, isTTY?: boolean }} more
 * @returns {Promise<Ran>}
 */
async function run(words, { cwd = PACKAGES, environment = {}, isTTY = false } = {}) {
  const io = { cwd, environment: { FAST_CHECK: process.env.FAST_CHECK || '', ...environment }, out: keeper(isTTY), err: keeper() };
  const status = await main(words, io);
  // The paths of a patch begin at the repository.
  const inside = `${path.relative(TOP, cwd)}/`;
  const out = words.includes('--dry') ? io.out.text.replaceAll(`a/${inside}`, 'a/').replaceAll(`b/${inside}`, 'b/') : io.out.text;
  return { status, out: untimed(out), err: untimed(io.err.text) };
}

/** A text without the seconds that a run takes. */
function untimed(/** @type {string} */ text) {
  return text.replace(/, \d+\.\d\d s(?=\n|;)/g, ', 0.00 s');
}

function same(/** @type {unknown} */ got, /** @type {unknown} */ wanted, what = 'it') {
  if (got === wanted) return;
  const [a, b] = [String(got).split('\n'), String(wanted).split('\n')];
  let at = 0;
  while (a[at] === b[at]) at++;
  throw new Error(`${what} differs in line ${at + 1}:\n- ${b[at]}\n+ ${a[at]}`);
}

/**
 * @param {unknown} value
 * @param {string} what
 * @returns {asserts value}
 */
function holds(value, what) {
  if (!value) throw new Error(what);
}

/** Calls back with a folder that is removed again. */
async function withFolder(/** @type {(folder: string) => unknown} */ body) {
  const folder = fs.mkdtempSync(path.join(os.tmpdir(), 'fast-check-test-'));
  try {
    await body(folder);
  } finally {
    fs.rmSync(folder, { recursive: true, force: true });
  }
}

const CONFIG = '{ "name": "@test/odd", "version": "1.0.0", "exports": "./mod.ts" }';

/** Writes files into a folder, and a `deno.json` besides. */
function write(/** @type {string} */ folder, /** @type {Record<string, Content>} */ files) {
  for (const [name, content] of Object.entries({ 'deno.json': CONFIG, ...files })) {
    if (content === null) continue;
    const file = path.join(folder, name);
    fs.mkdirSync(path.dirname(file), { recursive: true });
    if (typeof content === 'string' || Buffer.isBuffer(content)) fs.writeFileSync(file, content);
    else if ('linkTo' in content) fs.symlinkSync(/** @type {{ linkTo: string }} */ (content).linkTo, file);
    else childProcess.execFileSync('mkfifo', [file]);
  }
}

/** The text of a file, or of another where there is none. */
function readOr(/** @type {string} */ file, /** @type {string} */ otherwise) {
  return fs.existsSync(file) ? fs.readFileSync(file, 'utf8') : otherwise;
}

/** Tests of a list. */
function cases(/** @type {Case[]} */ list) {
  for (const [name, body] of list) test(name, () => body());
}

module.exports = { run, untimed, same, holds, withFolder, write, readOr, cases, CONFIG, TOP, TESTS, PACKAGES, LAUNCHER, DOCS, COMPILER };
