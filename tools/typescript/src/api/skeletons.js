'use strict';
// The skeletons of a folder as TypeScript, or its declaration files.

/** @typedef {import('../program/types').RunContext & { progress: { end(): void } }} Context */
/** @typedef {import('../program/types').AnalyseOptions} Options */
/** @typedef {import('../skeleton/types').Printed} Printed */
/** @typedef {import('../program/types').World} World */

/** Some skeletons of a folder and its declaration files. Why others have none is added to the folder's messages. */
function declared(/** @type {World} */ world, /** @type {Printed[]} */ skeletons, /** @type {Context} */ { cwd }) {
  const { shownName } = require('../program/answer.js');
  const { declarationFiles } = require('../skeleton/declaration-files.js');
  const { files, messages } = declarationFiles(world, (file) => shownName(file, cwd));
  world.messages.push(...messages);
  const names = new Set(files.map((it) => it.name));
  return [...skeletons.filter((it) => !names.has(it.name)), ...files];
}

/**
 * The texts of the skeletons by the names of their modules, where the program has read the folder; else none.
 *
 * @param {string} dir
 * @param {World} world
 * @param {Options} options
 * @param {Context} context
 * @returns {Promise<Map<string, string>>}
 */
async function programTexts(dir, world, options, context) {
  const { textsBySource } = require('../program/by-source.js');
  const { sourceProgramFile } = require('../program/program.js');
  const program = sourceProgramFile(context.environment);
  if (!world.isBySource || !program || !world.skeletons.size) return new Map();
  return textsBySource(program, dir, options, context);
}

/** The folder that was analysed, and what is printed of it: `{specifier, name, text, isPreview}` of each skeleton, or of each declaration file. */
async function skeletonsOf(/** @type {string} */ dir, /** @type {Options} */ options, /** @type {Context} */ context) {
  const { analyse } = require('../program/answer.js');
  const { printed } = require('../skeleton/write.js');
  const world = await analyse(dir, { ...options, preview: true }, context);
  const known = await programTexts(dir, world, options, context);
  context.progress.begin('printing');
  const skeletons = options.dts ? [] : printed(world, known);
  const texts = options.dts || options.withDts ? declared(world, skeletons, context) : skeletons;
  context.progress.end();
  return { world, skeletons: texts };
}

module.exports = { skeletonsOf };
