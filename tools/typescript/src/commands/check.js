'use strict';
// Checks folders, or tells again what is kept of a check that would read the same.
const { Whole } = require('../program/whole.js');
const { targetsOf } = require('../cli/targets.js');

/** @typedef {import('../cli/types').Context} Context */
/** @typedef {import('../cli/types').Options} Options */

async function check(/** @type {string[]} */ words, /** @type {Options} */ options, /** @type {Context} */ context) {
  const targets = targetsOf(words, options, context.cwd);
  const whole = Whole.of(targets, options, context);
  const known = whole && whole.told();
  if (known !== null) return known;
  // It needs all of the reader, which takes as long as what is kept.
  const { checkAll } = require('./check-all.js');
  const status = await checkAll(targets, options, whole ? whole.listening : context);
  if (whole) whole.keep(status);
  return status;
}

module.exports = { check };
