'use strict';
// Random modules, and those of the stored packages with edits: part 3.
const { part } = require('../support/fuzzed.js');

part(3);
