'use strict';
// Checks one folder: what is reported of it, without what is allowed or known.
const path = require('path');
const { analyse, answersTo, part, statusOf } = require('../program/answer.js');
const { withoutAllowed, withoutSettledBaselines } = require('../messages/allow.js');
const { refusalOf } = require('../cli/exit.js');
const { NO_COMPILER } = require('../compiler/find.js');
const { withoutNamedReturns } = require('../tables/asserted-types.js');

/** @typedef {import('../program/types').RunContext} RunContext */
/** @typedef {import('../program/types').AnalyseOptions} AnalyseOptions */
/** @typedef {import('../cli/types').Options} Options */
/** @typedef {import('../cli/types').Target} Target */
/** @typedef {import('../cli/types').Result} Result */
/** @typedef {import('../messages/types').Message} Message */
/** @typedef {import('../program/types').World} World */
/** @typedef {RunContext & { progress: { end(): void } }} Context */
/** @typedef {{ context: Context, baseline: import('../messages/allow.js').Baseline | null }} View */

/** What is reported of a folder that was analysed: its messages without those that are allowed or known, and how many these are. */
function toldOf(/** @type {World} */ world, /** @type {Message[]} */ messages, /** @type {Options} */ options, /** @type {View} */ { baseline, context }) {
  const all = [...world.warnings, ...messages];
  const found = options.quiet ? all.filter(({ level }) => level !== 'Warning') : all;
  const wanted = withoutAllowed(world, found, options);
  const reading = context.reading || ((call) => call());
  const unsettled = reading(() => withoutSettledBaselines(world, wanted, context.cwd));
  const told = new Set(baseline ? baseline.without(unsettled) : unsettled);
  const left = (/** @type {Message[]} */ list) => list.filter((each) => told.has(each));
  return {
    messages: [...left(world.warnings), ...world.broken, ...left(messages)],
    allowed: found.length - wanted.length,
    known: wanted.length - told.size,
  };
}

/**
 * What the program and, where it is asked for, the compiler say of a folder.
 *
 * @returns {Promise<Message[]>}
 */
async function messagesOf(/** @type {World} */ world, /** @type {Options} */ options, /** @type {Context} */ context) {
  if (!options.verify || !world.skeletons.size) return world.messages;
  const { verified } = require('../compiler/thread.js');
  context.progress.begin("TypeScript's compiler checks the skeletons");
  return [...world.messages, ...await verified(world, context)];
}

/** Whether a message is one of some files, where only these are asked for. */
function isAsked(/** @type {Set<string> | undefined} */ only, /** @type {{ cwd: string }} */ { cwd }) {
  return (/** @type {Message} */ { file }) => !only || (file !== undefined && only.has(path.resolve(cwd, file)));
}

/**
 * How many return types of a folder single returns name: for so many more deno asks.
 *
 * @returns {Promise<number>}
 */
async function singleReturnsOf(/** @type {World} */ world, /** @type {Options} */ options, /** @type {Context} */ context) {
  if (!isCounted(options) || !world.info.modules.some(namesReturns)) return 0;
  if (world.isBySource) return singleReturnsBySource(world, options, context);
  const asked = (/** @type {Message[]} */ messages) => messages.filter(({ code }) => code === 'missing-explicit-return-type').map(({ file, start }) => `${file} ${start}`);
  const known = new Set(asked(world.messages));
  const { messages } = part(await answersTo(withoutNamedReturns(world.request), options, context, { ...world, name: 'named' }), world, context.cwd);
  return asked(messages).filter((each) => !known.has(each)).length;
}

/** Whether a body of a module names its return type by its only return. */
function namesReturns(/** @type {import('../package/types').Module} */ { parts, namesReturns: isSaid }) {
  return isSaid || Boolean(parts && parts.marks.namesReturns);
}

/** The same of a folder that the program reads itself: its skeletons have these types, and where some are missing the compiler's reader is asked. */
async function singleReturnsBySource(/** @type {World} */ world, /** @type {Options} */ options, /** @type {Context} */ context) {
  const { namedReturnsIn } = require('../skeleton/named-returns.js');
  if (world.messages.every(({ level }) => level === 'Warning')) return namedReturnsIn(world);
  try {
    return await singleReturnsOf(await analyse(world.dir, { ...options, reader: 'typescript' }, context), options, context);
  } catch (error) {
    if (/** @type {import('../cli/types').KnownError} */ (error).code === NO_COMPILER) return 0;
    throw error;
  }
}

/** Whether the last line of a check says how many return types single returns name. */
function isCounted(/** @type {Options} */ { rules, format, quiet }) {
  return rules !== 'deno' && (format === undefined || format === 'text') && !quiet;
}

/**
 * The result of a folder: `world`, null where it cannot be read, `thrown`, which says why, `error`, which was thrown, the messages that are reported, how many
 * others are allowed and known, how many return types single returns name, and the status.
 *
 * @returns {Promise<Result>}
 */
async function resultOf(/** @type {Target} */ { dir, exports, only }, /** @type {AnalyseOptions} */ options, /** @type {View} */ { context, baseline }) {
  try {
    const world = await analyse(dir, { ...options, exports }, context);
    const found = (await messagesOf(world, options, context)).filter(isAsked(only, context));
    const told = toldOf({ ...world, warnings: world.warnings.filter(isAsked(only, context)) }, found, options, { baseline, context });
    const singleReturns = await singleReturnsOf(world, options, context);
    return { dir, world, thrown: null, status: statusOf(world.broken), singleReturns, ...told };
  } catch (error) {
    const thrown = refusalOf(/** @type {import('../cli/types').KnownError} */ (error));
    return { dir, world: null, thrown, error, status: thrown.status, messages: thrown.messages, singleReturns: 0, allowed: 0, known: 0 };
  } finally {
    context.progress.end();
  }
}

module.exports = { resultOf };
