'use strict';
// Where this tool lies: in a clone of its repository, in a Debian package, or in an npm package.
const fs = require('fs');
const path = require('path');

// The folder of `bin` and `src`, and the one that has the launchers in a clone and in the Debian package.
const OWN = path.resolve(__dirname, '../..');
const TOP = path.resolve(OWN, '../..');
const { name, version } = require('../../package.json');

/** Whether this is a clone of the repository, which builds its program itself. */
const isClone = fs.existsSync(path.join(TOP, 'crates.txt'));

// The proved program, as an npm package has it.
const PACKED = path.join(OWN, 'bin', 'fast-check');
const isNpm = fs.existsSync(PACKED);

/** The name by which users call this tool. */
const NAME = isNpm ? name : 'fast-check-ts';

/** The program, or in a clone the launcher that proves and builds it first. */
const PROGRAM = isNpm ? PACKED : path.join(TOP, 'fast-check');

/** The script that fetches a newer compiler; null where it is not installed. */
const NEWEST = isNpm ? null : path.join(OWN, 'newest.sh');

/** The folder of the pages that explain codes. */
const ERRORS = isClone ? path.join(TOP, 'docs/errors') : path.join(OWN, 'errors');

module.exports = { ERRORS, NAME, NEWEST, PROGRAM, VERSION: version, isClone, isNpm };
