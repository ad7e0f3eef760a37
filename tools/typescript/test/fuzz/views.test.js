'use strict';
// Random packages, as their users see them.
const { test } = require('node:test');
const { fuzzViews } = require('../../dev/fuzz_views.js');
const { holds } = require('../support/helpers.js');

test('what users of 50 random packages see', async () => {
  /** @type {string[]} */
  const told = [];
  const { modules } = await fuzzViews(50, 1, (line) => told.push(line));
  holds(!told.length && modules > 25, told.join('\n') || `${modules} modules were tried`);
});
