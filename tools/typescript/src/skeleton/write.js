'use strict';
// Skeletons as TypeScript: printed, and written to a folder.
const fs = require('fs');
const path = require('path');
const { makeFolder } = require('../package/files.js');
const { print } = require('../tree/print/index.js');

/** @typedef {import('../program/types').World} World */
/** @typedef {import('../program/types').Skeleton} Skeleton */

/** The text of a skeleton. An exception has the name of the module. */
function printedModule(/** @type {string} */ name, /** @type {Skeleton} */ { program, comments }, /** @type {boolean} */ isDeclaration) {
  try {
    return print({ Module: program }, comments, { isDeclaration, name });
  } catch (error) {
    throw Object.assign(/** @type {Error} */ (error), { module: name });
  }
}

const PREVIEW = '// A preview: something is wrong with another module of the package.\n';

/** The skeletons of a folder that are shown, those of a preview too, `{specifier, skeleton, mark}`, with a line that marks a preview. */
function shown(/** @type {World} */ world) {
  const preview = world.preview ? world.preview.skeletons : [];
  const marked = (/** @type {Iterable<[string, Skeleton]>} */ all, /** @type {string} */ mark) => [...all].map(([specifier, skeleton]) => ({ specifier, skeleton, mark }));
  return [...marked(world.skeletons, ''), ...marked(preview, PREVIEW)];
}

/**
 * Texts in the order of their names.
 *
 * @template {{ name: string }} T
 * @param {T[]} texts
 */
function byName(texts) {
  return texts.sort((a, b) => (a.name < b.name ? -1 : a.name > b.name ? 1 : 0));
}

/**
 * The printed skeletons of a folder, in the order of their names: `{specifier, name, text, isPreview}`. `known` has the texts that the program has printed.
 *
 * @param {World} world
 * @param {Map<string, string>} known
 */
function printed(world, known = new Map()) {
  const made = [];
  for (const { specifier, skeleton, mark } of shown(world)) {
    const file = world.files.get(specifier);
    const name = file ? file.name : specifier;
    const own = mark === '' ? known.get(name) : undefined;
    const text = own === undefined ? printedModule(name, skeleton, /\.d\.[cm]?ts$/.test(specifier)) : own;
    made.push({ specifier, name, text: mark + text, isPreview: mark !== '' });
  }
  return byName(made);
}

/** All skeletons as one text, each behind a line that names its module. */
function joined(/** @type {{ name: string, text: string }[]} */ skeletons) {
  return skeletons.map(({ name, text }) => `// ${name}\n${text.replace(/\n*$/, '\n')}`).join('\n');
}

/** Writes the skeletons to a folder, which is made if it is not there. A name that leads out of it is an error. */
function write(/** @type {string} */ folder, /** @type {{ name: string, text: string }[]} */ skeletons) {
  for (const { name, text } of skeletons) {
    const file = path.join(folder, name);
    if (path.relative(folder, file).startsWith('..')) throw new Error(`${name} lies outside of the package, and is not written`);
    makeFolder(path.dirname(file));
    fs.writeFileSync(file, text);
  }
}

module.exports = { byName, joined, printed, printedModule, shown, write };
