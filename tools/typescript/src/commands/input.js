'use strict';
// The command `input`: what the program is asked of a package.
const { folderOf, statusOf, writeMessages } = require('./shared.js');

/** @typedef {import('../cli/types').Context} Context */
/** @typedef {import('../cli/types').Options} Options */

async function input(/** @type {string[]} */ [word], /** @type {Options} */ options, /** @type {Context} */ context) {
  const { requestOf } = require('../program/answer.js');
  const { text, broken } = await requestOf(folderOf(word, context), options, context);
  context.progress.end();
  writeMessages(broken, {}, { out: context.err, paint: context.paintErrors });
  context.out.write(`${text}\n`);
  return statusOf({ broken }, []);
}

module.exports = { input };
