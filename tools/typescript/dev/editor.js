#!/usr/bin/env node
'use strict';
// Times the language server on packages of one module and of many, by the program that reads TypeScript and by the compiler:
//
//   FAST_CHECK=PROGRAM FAST_CHECK_SOURCE=PROGRAM node tools/typescript/dev/editor.js
//
// A row is a package and a reader: the milliseconds from a document that is opened to its diagnostics, where nothing is kept and where an earlier server kept what it
// keeps; those from an edit to its diagnostics, the first and the median of nine; those of processor that an edit takes, of the server and of the programs; and the
// most memory of the server's process, with edits and where it is begun anew.
const fs = require('fs');
const os = require('os');
const path = require('path');
const { Client } = require('../test/lsp/client.js');
const { writePackage } = require('./packages.js');

const EDITS = 9;
// Until the server has looked at all of the package behind an edit.
const BETWEEN = 1000;
const SLOW = 'export function slow() { return Math.random(); }\n';

const wait = (/** @type {number} */ time) => new Promise((resolve) => setTimeout(resolve, time));

/** The milliseconds that a call takes until a test of what the server said holds. */
async function timed(/** @type {Client} */ client, /** @type {() => void} */ call, /** @type {() => boolean} */ test) {
  const begun = process.hrtime.bigint();
  call();
  await client.until(test, 'the answer', 120);
  return Number((process.hrtime.bigint() - begun) / 1000000n);
}

/** The most megabytes that a process had. */
function memoryOf(/** @type {number | undefined} */ pid) {
  const [, kilobytes = '0'] = /VmHWM:\s*(\d+)/.exec(fs.readFileSync(`/proc/${pid}/status`, 'utf8')) || [];
  return Math.round(Number(kilobytes) / 1024);
}

/** The milliseconds of processor of a process, and of those that it has run. */
function processorOf(/** @type {number | undefined} */ pid) {
  const parts = fs.readFileSync(`/proc/${pid}/stat`, 'utf8').replace(/.*\) /, '').split(' ').map(Number);
  return [parts[11] + parts[12], parts[13] + parts[14]].map((it) => it * 10);
}

/** One server over a folder: how long the opening took and the edits, the processor that an edit takes, and its memory. */
async function session(/** @type {string} */ folder, /** @type {NodeJS.ProcessEnv} */ environment, /** @type {number} */ edits) {
  const client = new Client(folder, environment);
  const text = fs.readFileSync(path.join(folder, 'm0.ts'), 'utf8');
  const lines = text.split('\n').length - 2;
  const isAt = (/** @type {number} */ line) => client.shown('m0.ts').some((it) => it.endsWith(` ${line}:16`));
  await client.begin({}, { workspaceFolders: [] });
  const opened = await timed(client, () => client.open('m0.ts', text), () => isAt(lines));
  /** @type {number[]} */
  const times = [];
  let before = [0, 0];
  for (let count = 1; count <= edits; count++) {
    const start = { line: 16, character: 0 };
    times.push(await timed(client, () => client.change('m0.ts', { range: { start, end: start }, text: `  void ${count};\n` }), () => isAt(lines + count)));
    await wait(BETWEEN);
    if (count === 1) before = processorOf(client.child.pid);
  }
  const processor = processorOf(client.child.pid).map((it, at) => Math.round((it - before[at]) / EDITS));
  const memory = memoryOf(client.child.pid);
  await client.end();
  return { opened, times, processor, memory };
}

async function row(/** @type {string} */ name, /** @type {string} */ folder, /** @type {NodeJS.ProcessEnv} */ given) {
  const kept = fs.mkdtempSync(path.join(os.tmpdir(), 'fast-check-kept-'));
  try {
    const environment = { ...given, XDG_CACHE_HOME: kept };
    const { opened, times: [first, ...others], processor, memory } = await session(folder, environment, EDITS + 1);
    const again = await session(folder, environment, 0);
    console.log(`| ${[name, opened, again.opened, first, others.sort((a, b) => a - b)[EDITS >> 1], ...processor, `${memory} MB`, `${again.memory} MB`].join(' | ')} |`);
  } finally {
    fs.rmSync(kept, { recursive: true });
  }
}

async function main() {
  const top = fs.mkdtempSync(path.join(os.tmpdir(), 'fast-check-editor-'));
  // Beside a program that lies by itself there is none that reads TypeScript.
  const alone = path.join(top, 'fast-check');
  fs.symlinkSync(path.resolve(process.env.FAST_CHECK || ''), alone);
  try {
    for (const count of [1, 10, 50, 128]) {
      const folder = path.join(top, String(count));
      fs.mkdirSync(folder);
      writePackage(folder, count);
      fs.appendFileSync(path.join(folder, 'm0.ts'), SLOW);
      await row(`${count}, the program`, folder, {});
      await row(`${count}, the compiler`, folder, { FAST_CHECK: alone, FAST_CHECK_SOURCE: undefined });
    }
  } finally {
    fs.rmSync(top, { recursive: true, force: true });
  }
}

main();
