'use strict';
// What programs call: plain data in and out. Nothing is printed, and no call ends the process.
const fs = require('fs');
const path = require('path');
const { resultOf: checkedFolder } = require('./check.js');
const { EITHER } = require('../program/program.js');
const { skeletonsOf } = require('./skeletons.js');
const { VERSION } = require('../cli/installed.js');
const { Progress } = require('../cli/progress.js');
const { messagesOf, statusOf } = require('../commands/shared.js');
const { comparison, versionOf } = require('../diff/comparison.js');
const { plain } = require('../messages/message.js');
const { rewriteTexts } = require('../package/files.js');
const { analyse } = require('../program/answer.js');

/** @typedef {import('./api').Options} Options */
/** @typedef {import('../messages/types').Message} Message */
/** @typedef {import('../program/types').World} World */

/** @typedef {import('../program/types').AnalyseOptions} AnalyseOptions */
/** @typedef {import('../cli/types').KnownError} KnownError */
/** @typedef {import('./check.js').Context} Context */
/** @typedef {import('./api').CheckOptions & import('./api').SkeletonOptions & import('./api').FixOptions} Given */

/**
 * What the command line calls these options.
 *
 * @returns {AnalyseOptions}
 */
function optionsOf(/** @type {Given} */ { name, version, exports: entries, cache = true, ownCompiler = true, allow, comments = true, rules, verify, texts }) {
  return { name, version, exports: entries, noCache: !cache, noOwnCompiler: !ownCompiler, allow, noIgnore: !comments, rules, verify, texts, reader: EITHER };
}

/**
 * Reads a folder by `call(folder, options, context)`. What is kept of sources is tidied behind it.
 *
 * @template R
 * @param {string} dir
 * @param {Given} given
 * @param {(folder: string, options: AnalyseOptions, context: Context) => Promise<R>} call
 * @returns {Promise<R>}
 */
async function within(dir, given, call) {
  const { keptFor } = require('../package/cache.js');
  const { lookIn } = require('../compiler/find.js');
  const folder = path.resolve(dir);
  if (!fs.existsSync(folder) || !fs.statSync(folder).isDirectory()) throw Object.assign(new Error(`there is no folder ${dir}`), { status: 2 });
  const options = optionsOf(given);
  const environment = given.program ? { ...process.env, FAST_CHECK: given.program, FAST_CHECK_SOURCE: undefined } : process.env;
  if (!options.noOwnCompiler) lookIn(folder);
  const kept = keptFor(options, environment);
  const context = { cwd: folder, environment, signal: given.signal, progress: new Progress({ write() {} }, false) };
  const answer = await call(folder, { ...options, kept }, context);
  kept.end();
  return answer;
}

/** A result: the status, the messages as plain data, the packages. */
function resultOf(/** @type {Pick<World, 'broken'> & { info: { packages: { name: string, version: string }[] } }} */ world, /** @type {Message[]} */ messages) {
  const packages = world.info.packages.map(({ name, version }) => ({ name, version }));
  return { status: statusOf(world, messages), reason: null, messages: messages.map(plain), packages };
}

/**
 * What `call` answers; of a folder that cannot be read, why. All else that is thrown goes on.
 *
 * @template R
 * @param {() => Promise<R>} call
 */
async function orRefused(call) {
  try {
    return await call();
  } catch (thrown) {
    const error = /** @type {KnownError} */ (thrown);
    if (error.name === 'AbortError' || error.status !== 2) throw error;
    return { status: 2, reason: error.message, messages: (error.messages || []).map(plain), packages: [] };
  }
}

/** @type {typeof import('./api').check} */
async function check(dir, options = {}) {
  return within(dir, options, (folder, asked, context) => orRefused(async () => {
    const { world, messages, error } = await checkedFolder({ dir: folder, exports: asked.exports }, { ...asked, format: 'json' }, { context, baseline: null });
    if (!world) throw error;
    return resultOf(world, messages);
  }));
}

/** @type {typeof import('./api').skeleton} */
async function skeleton(dir, options = {}) {
  return within(dir, options, async (folder, asked, context) => {
    const found = await orRefused(async () => {
      const { world, skeletons } = await skeletonsOf(folder, { ...asked, dts: options.declarations }, context);
      const modules = skeletons.map(({ name, text, isPreview }) => ({ path: name, text, isPreview: Boolean(isPreview) }));
      return { ...resultOf(world, messagesOf(world)), modules };
    });
    return { modules: [], ...found };
  });
}

/** @type {typeof import('./api').fix} */
async function fix(dir, options = {}) {
  return within(dir, options, async (folder, asked, context) => {
    const found = await orRefused(async () => {
      const { fixed } = require('../compiler/thread.js');
      const { world, texts, count } = await fixed(folder, asked, context);
      if (options.write) rewriteTexts(texts);
      const changed = new Map([...texts].filter(([file, text]) => !options.texts || options.texts.get(file) !== text));
      return { ...resultOf(world, messagesOf(world)), texts: changed, types: count };
    });
    return { texts: new Map(), types: 0, ...found };
  });
}

/** A version of a package, as `comparison` takes it. */
async function versionIn(/** @type {string} */ dir, /** @type {Options} */ options) {
  return within(dir, options, async (folder, asked, context) => {
    const world = await analyse(folder, { ...asked, preview: true }, context);
    const version = versionOf(world);
    if (version) return version;
    throw Object.assign(new Error(`no module of ${dir} can be compared, since each has messages`), { messages: messagesOf(world) });
  });
}

/** @type {typeof import('./api').diff} */
async function diff(oldDir, newDir, options = {}) {
  const before = await versionIn(oldDir, options);
  const after = await versionIn(newDir, options);
  return within(newDir, options, async (folder, asked, context) => {
    const { changes, advice, reason, hidden, limits, versions } = await comparison(before, after, context);
    const plainChanges = changes.map((it) => ({ name: it.name, module: it.module, change: it.change, advice: it.advice, reason: it.reason }));
    return { advice, reason, changes: plainChanges, hidden, notCompared: limits, versions };
  });
}

module.exports = { check, diff, fix, skeleton, version: VERSION };
