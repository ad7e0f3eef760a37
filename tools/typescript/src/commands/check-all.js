'use strict';
// Checks folders, one after another, and reports their errors and warnings in the format that is asked for.
const { resultOf } = require('../api/check.js');
const { Baseline } = require('../messages/allow.js');
const { FORMATS, count } = require('../messages/formats.js');
const { rewriteTexts } = require('../package/files.js');

/** @typedef {import('../cli/types').Context} Context */
/** @typedef {import('../cli/types').Options} Options */
/** @typedef {import('../cli/types').Target} Target */
/** @typedef {import('../cli/types').Result} Result */
/** @typedef {{ context: Context, baseline: Baseline | null }} View */

/** The status of all results: the highest of what cannot be read, else 1 where there are errors, or more warnings than may be. */
function statusOfAll(/** @type {Result[]} */ results, /** @type {Options} */ { maxWarnings = Infinity }) {
  const highest = Math.max(...results.map(({ status }) => status));
  const levels = results.flatMap(({ messages }) => messages.map(({ level }) => level));
  const warnings = levels.filter((it) => it === 'Warning').length;
  return highest || (levels.length > warnings || warnings > maxWarnings ? 1 : 0);
}

/** Checks all folders once, and answers the status and the results. */
async function checkOnce(/** @type {Target[]} */ targets, /** @type {Options} */ options, /** @type {View} */ view) {
  const format = FORMATS[options.format || 'text'];
  /** @type {Result[]} */
  const results = [];
  for (const target of targets) {
    const result = await resultOf(target, options, view);
    format.result(result, options, view.context);
    results.push(result);
  }
  format.end(results, options, view.context);
  return { status: statusOfAll(results, options), results };
}

/** Writes the types that messages of some folders ask for. */
async function fixAll(/** @type {Target[]} */ targets, /** @type {Options} */ options, /** @type {Context} */ context) {
  const { fixed } = require('../compiler/thread.js');
  for (const { dir, exports, only } of targets) {
    const within = only && { files: only };
    const { texts, count: types } = await fixed(dir, { ...options, exports, within }, context);
    context.progress.end();
    rewriteTexts(texts);
    if (types) context.err.write(`${count(types, 'type')} written in ${count(texts.size, 'file')}\n`);
  }
}

/**
 * Checks folders, as `targetsOf` answers them, and answers the status.
 *
 * @returns {Promise<number>}
 */
async function checkAll(/** @type {Target[]} */ targets, /** @type {Options} */ options, /** @type {Context} */ context) {
  if (options.fix) await fixAll(targets, options, context);
  const view = { context, baseline: options.baseline ? Baseline.of(options.baseline, context.cwd) : null };
  if (!options.watch) return (await checkOnce(targets, options, view)).status;
  const { watch } = require('./watch.js');
  return watch(targets, context, !options.format || options.format === 'text', (round) => checkOnce(targets, options, { ...view, context: round }));
}

module.exports = { checkAll };
