#!/usr/bin/env node
'use strict';
// Times `fast-check-ts` on packages of one module and of many, and another version of it beside it:
//
//   FAST_CHECK=PROGRAM node tools/typescript/dev/speed.js [CLONE]
//
// Each figure is the median of nine runs in seconds of the clock, with the seconds of processor behind it; where another clone is named, it runs in turn with this one
// and has the first column. The last column is what the clock may show at most on a quiet machine. The last line is what the program is sent.
const childProcess = require('child_process');
const fs = require('fs');
const os = require('os');
const path = require('path');
const { writePackage } = require('./packages.js');

const RUNS = 9;
// Those of a large package, of which the program's input is weighed.
const [MANY, MOST] = [128, 762];

/** A version of the tool: its launcher, and the folder of what it keeps. */
/** @typedef {{ launcher: string, kept: string }} Version */
/** @typedef {{ seconds: number, processor: number }} Times */

/** What is timed: its name, the modules of the package, the words, the seconds that it may take, and what is done before each run. */
/** @typedef {{ name: string, modules: number, words: string[], most?: number, environment?: NodeJS.ProcessEnv, before?: (folder: string, run: number) => void }} Row */

/** Edits the body of a function of a module, another way each time. */
function editOne(/** @type {string} */ folder, /** @type {number} */ run) {
  const file = path.join(folder, 'm0.ts');
  fs.writeFileSync(file, fs.readFileSync(file, 'utf8').replace(/const sum = /, `void ${run};\n  const sum = `));
}

/** Adds a declaration to a module, another one each time. */
function declareOne(/** @type {string} */ folder, /** @type {number} */ run) {
  fs.appendFileSync(path.join(folder, 'm0.ts'), `export const added${run + RUNS}: number = ${run};\n`);
}

/** Where the compiler lies that the variable TYPESCRIPT names, or Debian's. */
const COMPILER = process.env.TYPESCRIPT || '/usr/share/nodejs/typescript';

/** @type {Row[]} */
const ROWS = [
  { name: 'Node alone', modules: 1, words: ['node', '--eval', ''] },
  { name: 'check of one module, nothing changed', modules: 1, words: ['check'], most: 0.2 },
  { name: 'the same with TYPESCRIPT set', modules: 1, words: ['check'], most: 0.35, environment: { TYPESCRIPT: COMPILER } },
  { name: 'check of one module of which nothing is kept', modules: 1, words: ['check'], most: 0.32, before: declareOne },
  { name: 'the same with TYPESCRIPT set', modules: 1, words: ['check'], environment: { TYPESCRIPT: COMPILER }, before: declareOne },
  { name: 'check --no-cache of one module', modules: 1, words: ['check', '--no-cache'] },
  { name: `check of ${MANY} modules, nothing changed`, modules: MANY, words: ['check'], most: 0.25 },
  { name: `check of ${MANY} modules, a body of one changed`, modules: MANY, words: ['check'], most: 0.45, before: editOne },
  { name: `check of ${MANY} modules, a declaration added to one`, modules: MANY, words: ['check'], before: declareOne },
  { name: `check --no-cache of ${MANY} modules`, modules: MANY, words: ['check', '--no-cache'] },
  { name: `skeleton --dts --no-cache of ${MANY} modules`, modules: MANY, words: ['skeleton', '--dts', '--no-cache'] },
  { name: `tsc --declaration of ${MANY} modules`, modules: MANY, words: ['tsc', '--declaration', '--emitDeclarationOnly', '--target', 'esnext', '--moduleResolution', 'node'] },
];

/** The times of one run, which has to end with status 0. */
function timed(/** @type {Version} */ { launcher, kept }, /** @type {Row} */ row, /** @type {string} */ folder) {
  /** @type {NodeJS.ProcessEnv} */
  const env = { ...process.env, ...row.environment, XDG_CACHE_HOME: kept };
  if (!row.environment) delete env.TYPESCRIPT;
  const begun = process.hrtime.bigint();
  /** @type {Record<string, string[]>} */
  const others = {
    node: [process.execPath, ...row.words.slice(1)],
    tsc: [process.execPath, path.join(COMPILER, 'lib/tsc.js'), ...row.words.slice(1), '--outDir', path.join(kept, 'out'), path.join(folder, 'mod.ts')],
  };
  const words = ['-c', 'TIMEFORMAT="%U %S"; time "$@"', 'bash', ...(others[row.words[0]] || [launcher, ...row.words, folder])];
  const { status, stdout, stderr } = childProcess.spawnSync('bash', words, { encoding: 'utf8', env, maxBuffer: 1 << 30, stdio: ['ignore', 'pipe', 'pipe'] });
  const seconds = Number(process.hrtime.bigint() - begun) / 1e9;
  if (status !== 0) throw new Error(`${launcher} ${row.words.join(' ')} ended with ${status}: ${stdout}${stderr}`);
  const [user, system] = stderr.trim().split('\n').slice(-1)[0].split(' ').map(Number);
  return { seconds, processor: user + system };
}

/** The middle one of some numbers. */
const median = (/** @type {number[]} */ all) => all.sort((a, b) => a - b)[all.length >> 1].toFixed(2);

/** The medians of a row, a text for each version. */
function measured(/** @type {Row} */ row, /** @type {Version[]} */ versions, /** @type {string} */ folder) {
  const all = versions.map(() => /** @type {Times[]} */ ([]));
  for (let run = -1; run < RUNS; run++) {
    for (const [at, version] of versions.entries()) {
      if (row.before) row.before(folder, run * versions.length + at);
      const times = timed(version, row, folder);
      // The first run makes what is kept.
      if (run >= 0) all[at].push(times);
    }
  }
  return all.map((times) => `${median(times.map((it) => it.seconds))} (${median(times.map((it) => it.processor))})`);
}

/** The megabytes of the program's input, as the compiler's reader makes it, which is the only one of an older version. */
function inputOf(/** @type {Version} */ { launcher, kept }, /** @type {string} */ folder) {
  const env = { ...process.env, XDG_CACHE_HOME: kept };
  const reader = path.dirname(launcher) === own ? ['--reader', 'typescript'] : [];
  const { stdout } = childProcess.spawnSync(launcher, ['input', ...reader, folder], { env, maxBuffer: 1 << 30, stdio: ['ignore', 'pipe', 'inherit'] });
  return `${(stdout.length / 1e6).toFixed(1)} MB`;
}

const own = path.resolve(__dirname, '../../..');
const top = fs.mkdtempSync(path.join(os.tmpdir(), 'fast-check-speed-'));
const versions = [...process.argv.slice(2), own].map((clone, at) => ({ launcher: path.resolve(clone, 'fast-check-ts'), kept: path.join(top, `kept${at}`) }));
try {
  /** @type {(modules: number) => string} */
  const packageOf = (modules) => {
    const folder = path.join(top, String(modules));
    if (!fs.existsSync(folder)) {
      fs.mkdirSync(folder);
      writePackage(folder, modules);
    }
    return folder;
  };
  for (const row of ROWS) console.log(`| ${[row.name, ...measured(row, versions, packageOf(row.modules)), row.most || ''].join(' | ')} |`);
  console.log(`| what is sent of ${MOST} modules | ${versions.map((it) => inputOf(it, packageOf(MOST))).join(' | ')} | 14 MB |`);
} finally {
  fs.rmSync(top, { recursive: true, force: true });
}
