'use strict';
// The command line of fast-check-ts: from a folder of TypeScript to messages, skeletons, differences and a page.
const path = require('path');
const { writeMessages } = require('../commands/shared.js');
const { lookIn } = require('../compiler/find.js');
const { refusalOf } = require('./exit.js');
const { keptFor } = require('../package/cache.js');
const { COMMANDS, USAGE, helpOf } = require('./options.js');
const { UsageError, parse } = require('./args.js');
const { NAME, VERSION } = require('./installed.js');
const { Progress } = require('./progress.js');
const { targetsOf } = require('./targets.js');

/** @typedef {import('./types').Io} Io */
/** @typedef {import('./types').Options} Options */

/** What a command works with: where it was started, the streams, colours, progress. */
function contextOf(/** @type {Io} */ io, /** @type {Options} */ options) {
  const noColor = options.plain || io.environment.NO_COLOR || io.environment.TERM === 'dumb';
  const { painter } = require('../messages/message.js');
  const paint = painter(Boolean(io.out.isTTY) && !noColor);
  const paintErrors = painter(Boolean(io.err.isTTY) && !noColor);
  /** @type {() => Omit<import('./types').Context, 'again'>} */
  const again = () => ({ ...io, kept: options.kept, paint, paintErrors, progress: new Progress(io.err, Boolean(io.err.isTTY)), begun: process.hrtime.bigint() });
  return { ...again(), again: () => contextOf(io, options) };
}

/**
 * The folder whose own compiler is looked for.
 *
 * @param {import('./types').Asked} asked
 * @param {{ cwd: string }} io
 */
function folderAsked({ command, rest, options }, { cwd }) {
  if (!rest.length || command === 'explain') return cwd;
  if (command === 'check') return targetsOf(rest, options, cwd)[0].dir;
  return path.resolve(cwd, rest[command === 'diff' ? 1 : 0]);
}

/**
 * Tells why a command could not be done, and answers its status.
 *
 * @param {import('./types').KnownError} thrown
 * @param {import('./types').Asked} asked
 * @param {import('./types').Context} context
 */
function refuse(thrown, { command, options }, context) {
  const isUsage = thrown instanceof UsageError;
  const { messages, status, message } = isUsage ? { messages: [], status: 2, message: thrown.message } : refusalOf(thrown);
  writeMessages(messages, options, options.json ? context : { out: context.err, paint: context.paintErrors });
  context.err.write(`${NAME}: ${message}\n`);
  if (isUsage && !command) context.err.write(`${NAME} --help says what there is\n`);
  return status;
}

/** Runs a command line, and answers its status. `io` has `cwd`, `environment`, and the streams `out` and `err`. */
async function main(/** @type {string[]} */ words, /** @type {Io} */ io) {
  /** @type {import('./types').Asked} */
  let asked = { command: '', rest: [], options: {} };
  let context = contextOf(io, {});
  try {
    asked = parse(words);
    asked.options.kept = keptFor(asked.options, io.environment);
    context = contextOf(io, asked.options);
    if (asked.command === 'help') io.out.write(asked.rest.length ? helpOf(asked.rest[0]) : USAGE);
    if (asked.command === 'version') io.out.write(`${NAME} ${VERSION}\n`);
    if (!COMMANDS[asked.command]) return 0;
    if (!asked.options.noOwnCompiler) lookIn(folderAsked(asked, io));
    const run = require(`../commands/${asked.command}.js`)[asked.command];
    const status = await run(asked.rest, asked.options, context);
    asked.options.kept.end();
    return status;
  } catch (error) {
    context.progress.end();
    return refuse(/** @type {import('./types').KnownError} */ (error), asked, context);
  }
}

module.exports = { main };
