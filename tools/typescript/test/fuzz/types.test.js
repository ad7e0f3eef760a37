'use strict';
// Types of the stored packages, dropped at random.
const fs = require('fs');
const path = require('path');
const { test } = require('node:test');
const { fuzzTypes } = require('../../dev/fuzz.js');
const { holds, PACKAGES } = require('../support/helpers.js');

test('types that are dropped, and written by fix', async () => {
  /** @type {string[]} */
  const told = [];
  const folders = fs.readdirSync(PACKAGES).map((name) => path.join(PACKAGES, name));
  const { types } = await fuzzTypes(30, 1, folders, (line) => told.push(line));
  holds(!told.length && types > 0, told.join('\n') || 'no type was written');
});
