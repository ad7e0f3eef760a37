#!/usr/bin/env node
'use strict';
// What `check` says of each package below some folders: which are clean, which messages there are, and why packages are refused.
//
//   FAST_CHECK=PROGRAM node sweep.js FOLDER .. [--verify] [--lines]
//   FAST_CHECK=PROGRAM node sweep.js FOLDER .. --fix [--lines]
//
// A package is a folder with a package.json and with TypeScript in it, outside of `node_modules` and of what tests are fed. With `--verify` the compiler checks
// the skeletons too, and with `--lines` there is a line of JSON for each package. A status that is none of 0, 1 and 2, or a refusal without a message, is
// reported, and gives the status 1. With `--fix` the types that messages ask for are written into the texts of each package that has such messages, where it lies,
// but into no file: how many are clean then, why the others are not, whether a second run changes anything, and what `--verify` finds.

const fs = require('fs');
const path = require('path');
const { main } = require('../src/cli/main.js');
const { Progress } = require('../src/cli/progress.js');

/** @typedef {import('../src/messages/types').Message} Message */

const PASSED_OVER = /^(node_modules|fixtures?|__fixtures__|__tests__|tests?|e2e|examples?)$/;

/**
 * Whether a folder has TypeScript, at most three levels down.
 *
 * @returns {boolean}
 */
function hasTypes(/** @type {string} */ dir, levels = 3) {
  return fs.readdirSync(dir, { withFileTypes: true }).some((it) => {
    if (it.isDirectory()) return levels > 0 && !PASSED_OVER.test(it.name) && hasTypes(path.join(dir, it.name), levels - 1);
    return it.isFile() && /\.[cm]?tsx?$/.test(it.name);
  });
}

/** The folders of packages below a folder. */
function packagesBelow(/** @type {string} */ dir, /** @type {string[]} */ found = []) {
  if (fs.existsSync(path.join(dir, 'package.json')) && hasTypes(dir)) found.push(dir);
  for (const it of fs.readdirSync(dir, { withFileTypes: true })) {
    if (it.isDirectory() && !PASSED_OVER.test(it.name)) packagesBelow(path.join(dir, it.name), found);
  }
  return found;
}

async function run(/** @type {string[]} */ words, /** @type {string} */ dir) {
  const keeper = () => ({ text: '', write(/** @type {string} */ part) { this.text += part; return true; } });
  const [out, err] = [keeper(), keeper()];
  const status = await main([...words, dir], { cwd: path.dirname(dir), environment: process.env, out, err });
  return { status, out: out.text, said: err.text.trim() };
}

/** The status of `check`, its messages, and what it says besides. */
async function check(/** @type {string} */ dir, /** @type {string[]} */ more) {
  const { status, out, said } = await run(['check', '--json', ...more], dir);
  const lines = out.split('\n').filter(Boolean).map((line) => JSON.parse(line));
  return { status, messages: lines.filter((it) => it.code !== undefined), said };
}

const errorsIn = (/** @type {Message[]} */ messages) => messages.filter((it) => it.level === 'Error');

/** Why a message is left, without the names and numbers of the one package. */
function causeOf(/** @type {{ code: string, info?: string[] }} */ { code, info = [] }) {
  const [, note] = /^not fixed: (.*)$/.exec(info.find((it) => it.startsWith('not fixed: ')) || '') || [];
  if (!note) return code;
  return note.replace(/its type names \S+, which/, 'its type names N, which').replace(/has \d+ characters/, 'has N characters');
}

/**
 * Writes types into the texts of a package, and none of its files: what is left, and what a second run and the compiler find then. Null where it asks for none.
 *
 * @returns {Promise<{ dir: string, before: number, count: number, left: Message[], others: Message[], isSame: boolean } | null>}
 */
async function fixed(/** @type {string} */ dir) {
  const { analyse } = require('../src/program/answer.js');
  const { FIXABLE } = require('../src/messages/codes.js');
  const { fixed: fix, verified } = require('../src/compiler/thread.js');
  const context = { cwd: dir, environment: process.env, progress: new Progress({ write() {} }, false) };
  const before = await analyse(dir, {}, context);
  if (!before.messages.some((it) => FIXABLE.has(it.code))) return null;
  const { world, texts, count } = await fix(dir, {}, context);
  const again = await fix(dir, { texts }, context);
  const isSame = again.count === 0 && [...again.texts].every(([name, text]) => texts.get(name) === text);
  const after = await analyse(dir, { texts }, context);
  const others = world.broken.length ? [] : await verified(after, context);
  return { dir, before: errorsIn(before.messages).length, count, left: errorsIn(world.messages), others: errorsIn(others), isSame };
}

async function sweepFixes(/** @type {string[]} */ folders, /** @type {string[]} */ words) {
  const causes = new Counts();
  const sums = { packages: 0, clean: 0, messages: 0, types: 0, left: 0, changed: 0, wrong: 0, failed: 0 };
  for (const dir of folders.flatMap((it) => packagesBelow(path.resolve(it)))) {
    // What cannot be read is reported without `--fix`.
    const found = await fixed(dir).catch(() => null);
    if (!found) continue;
    sums.packages += 1;
    sums.messages += found.before;
    sums.types += found.count;
    sums.left += found.left.length;
    if (!found.left.length) sums.clean += 1;
    if (!found.isSame) sums.changed += 1;
    if (found.others.length) sums.wrong += 1;
    for (const each of found.left) causes.add(causeOf(each), dir);
    const told = (/** @type {Message} */ it) => [it.code, it.message, it.file, ...(it.info || []).filter((line) => line.startsWith('not fixed'))];
    if (words.includes('--lines')) console.log(JSON.stringify({ ...found, left: found.left.map(told), others: found.others.map(told) }));
  }
  console.log(`${JSON.stringify(sums)}\n\n${causes.table('Left')}`);
  return sums.wrong + sums.changed ? 1 : 0;
}

class Counts {
  constructor() {
    /** @type {Map<string, { messages: number, dirs: Set<string> }>} */
    this.counts = new Map();
  }

  add(/** @type {string} */ key, /** @type {string} */ dir) {
    const found = this.counts.get(key) || { messages: 0, dirs: new Set() };
    this.counts.set(key, found);
    found.messages += 1;
    found.dirs.add(dir);
  }

  table(/** @type {string} */ head) {
    const sorted = [...this.counts].sort(([, a], [, b]) => b.dirs.size - a.dirs.size);
    const rows = sorted.map(([key, { messages, dirs }]) => `| ${key} | ${dirs.size} | ${messages} |`);
    return [`| ${head} | Packages | Messages |`, '|---|---|---|', ...rows].join('\n');
  }
}

async function sweep(/** @type {string[]} */ folders, /** @type {string[]} */ words) {
  const [codes, refusals] = [new Counts(), new Counts()];
  const sums = { packages: 0, clean: 0, warned: 0, messages: 0, refused: 0, wrong: 0 };
  for (const dir of folders.flatMap((it) => packagesBelow(path.resolve(it)))) {
    const { status, messages, said } = await check(dir, words.filter((it) => it === '--verify'));
    sums.packages += 1;
    const isWrong = ![0, 1, 2].includes(status) || (status === 2 && !messages.length);
    if (isWrong) sums.wrong += 1;
    else if (status === 2) sums.refused += 1;
    else sums[status === 1 ? 'messages' : messages.length ? 'warned' : 'clean'] += 1;
    for (const each of messages) (status === 2 ? refusals : codes).add(status === 2 ? `${each.code}: ${each.message}` : each.code, dir);
    const shown = messages.map((it) => [it.file, it.line, it.code, it.message]);
    if (words.includes('--lines') || isWrong) console.log(JSON.stringify({ dir, status, said, messages: shown }));
  }
  console.log(JSON.stringify(sums));
  console.log(`\n${codes.table('Code')}\n\n${refusals.table('Refused')}`);
  return sums.wrong ? 1 : 0;
}

module.exports = { check, fixed, packagesBelow };
if (require.main === module) {
  const words = process.argv.slice(2);
  const isOption = (/** @type {string} */ it) => it.startsWith('--');
  const call = words.includes('--fix') ? sweepFixes : sweep;
  call(words.filter((it) => !isOption(it)), words.filter(isOption)).then((status) => {
    process.exitCode = status;
  });
}
