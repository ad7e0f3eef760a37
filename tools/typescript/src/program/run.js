'use strict';
// Runs the proved program on a request, and reads its answer.
const childProcess = require('child_process');
const fs = require('fs');
const os = require('os');
const path = require('path');
const { PROGRAM } = require('../cli/installed.js');
const { PLATFORM, isForHere } = require('./program.js');
const { requestText } = require('./request.js');

/** @typedef {import('./types').Request} Request */

// How the folder of the program's input is named, which is removed again.
const FOLDER = 'fast-check-ts-';

/** What the program refuses, or that it is not there. `status` is the status that the command ends with. */
class ProgramError extends Error {
  constructor(/** @type {string} */ message, /** @type {number} */ status) {
    super(message);
    this.status = status;
  }
}

/** The words that run `build`: the program of the variable FAST_CHECK, or the launcher, which proves and builds it first. */
function command(/** @type {{ unproved?: boolean, environment: Record<string, string | undefined> }} */ { unproved, environment }) {
  if (environment.FAST_CHECK) return [environment.FAST_CHECK, 'build'];
  if (!isForHere()) throw new ProgramError(`the program of this package runs on Linux x86-64, and this is ${PLATFORM}`, 5);
  return [PROGRAM, ...(unproved ? ['--unproved'] : []), 'build'];
}

/** Runs the words with a file, and answers the status and both streams; what is said meanwhile goes to `tell`, line by line. `signal` may end it early. */
function run(/** @type {string[]} */ words, /** @type {(line: string) => void} */ tell, /** @type {AbortSignal | undefined} */ signal) {
  return new Promise((resolve, reject) => {
    const child = childProcess.spawn(words[0], words.slice(1), { stdio: ['ignore', 'pipe', 'pipe'], signal });
    /** @type {Buffer[]} */
    const out = [];
    let said = '';
    let rest = '';
    child.on('error', (error) => reject(error.name === 'AbortError' ? error : new ProgramError(`${words[0]} does not start: ${error.message}`, 5)));
    child.stdout.on('data', (part) => out.push(part));
    child.stderr.setEncoding('utf8');
    child.stderr.on('data', (part) => {
      const lines = (rest + part).split('\n');
      rest = lines.pop() || '';
      for (const line of lines) {
        if (line.startsWith('error: ')) said = line;
        else tell(line);
      }
    });
    child.on('close', (code, signal) => {
      if (rest.startsWith('error: ')) said = rest;
      resolve({ status: signal || code === null ? 128 : code, out: Buffer.concat(/** @type {Uint8Array[]} */ (out)).toString(), said, signal });
    });
  });
}

/** The request as JSON, which Node may not hold in one text. */
function textOf(/** @type {Request} */ request) {
  try {
    return requestText(request);
  } catch (error) {
    if (error instanceof RangeError && /string length/.test(error.message)) throw new ProgramError('out of memory: the input is longer than a text may be', 3);
    throw error;
  }
}

const SIGNALS = ['SIGINT', 'SIGTERM', 'SIGHUP'];
/**
 * The folders that are removed where a signal ends the command.
 *
 * @type {Set<string>}
 */
const atWork = new Set();
const removeFolder = (/** @type {string} */ folder) => fs.rmSync(folder, { recursive: true, force: true });

function stop(/** @type {NodeJS.Signals} */ signal) {
  atWork.forEach(removeFolder);
  process.exit(128 + os.constants.signals[signal]);
}

/**
 * Calls with a folder for what a program reads, which is removed behind it; of a command also where a signal of the system ends it.
 *
 * @template R
 * @param {boolean | undefined} isCommand
 * @param {(folder: string) => Promise<R>} call
 */
async function withFolder(isCommand, call) {
  const folder = fs.mkdtempSync(path.join(os.tmpdir(), FOLDER));
  if (isCommand && !atWork.size) SIGNALS.forEach((signal) => process.on(signal, stop));
  if (isCommand) atWork.add(folder);
  try {
    return await call(folder);
  } finally {
    removeFolder(folder);
    if (atWork.delete(folder) && !atWork.size) SIGNALS.forEach((signal) => process.removeListener(signal, stop));
  }
}

/**
 * The line that the program answers to a request.
 *
 * @param {any} request
 * @param {{ unproved?: boolean, environment: Record<string, string | undefined>, tell: (line: string) => void, isCommand?: boolean, signal?: AbortSignal }} options
 *   of a command a signal of the system removes what was written; `signal` ends the program early, and is thrown
 */
function lineOf(request, { unproved, environment, tell, isCommand, signal: ended }) {
  return withFolder(isCommand, async (folder) => {
    const file = path.join(folder, 'input.json');
    fs.writeFileSync(file, textOf(request));
    const words = command({ unproved, environment });
    const { status, out, said, signal } = await run([...words, file], tell, ended);
    if (status === 0 || status === 1) return /** @type {string} */ (out.trimEnd());
    const why = said || (signal ? `it was stopped by ${signal}` : `it ended with status ${status}`);
    throw new ProgramError(`the program did not answer: ${why.replace(/^error: /, '')}`, status <= 5 ? status : 5);
  });
}

module.exports = { FOLDER, ProgramError, lineOf, run, withFolder };
