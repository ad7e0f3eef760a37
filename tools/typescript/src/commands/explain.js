'use strict';
// The command `explain`: what a code of messages means, and what to write.
const { UsageError, meant } = require('../cli/args.js');
const { CODES } = require('../messages/codes.js');
const { explanationOf } = require('../messages/explanations.js');

/** @typedef {import('../cli/types').Options} Options */

function explain(/** @type {string[]} */ [code], /** @type {Options} */ options, /** @type {import('../cli/types').Context} */ { out }) {
  const text = explanationOf(code);
  if (text === null) throw new UsageError(`there is no code ${code}${meant(code, Object.keys(CODES))}`);
  out.write(text);
  return 0;
}

module.exports = { explain };
