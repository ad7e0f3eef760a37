'use strict';
// Random modules, and those of the stored packages with edits, in parts that run at once.
const { test } = require('node:test');
const { MODULES, fuzz } = require('../../dev/fuzz.js');
const { holds, TESTS } = require('./helpers.js');

/** So many packages has a part. */
const PACKAGES = Math.ceil(100 / MODULES);

/** The test of a part: those behind the parts before. */
function part(/** @type {number} */ number) {
  test(`random and edited modules of part ${number}`, async () => {
    /** @type {string[]} */
    const told = [];
    const { modules } = await fuzz(PACKAGES, 1 + (number - 1) * PACKAGES, [TESTS], (line) => told.push(line));
    holds(!told.length && modules > 50, told.join('\n') || `${modules} modules were tried`);
  });
}

module.exports = { part };
