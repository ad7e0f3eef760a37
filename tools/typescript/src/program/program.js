'use strict';
// Which program is run.
const fs = require('fs');
const path = require('path');
const { PROGRAM, isClone, isNpm } = require('../cli/installed.js');

const PLATFORM = `${process.platform} ${process.arch}`;

/** Whether the program is there for this machine: that of the npm package is for one kind alone. */
const isForHere = () => !isNpm || PLATFORM === 'linux x64';

/** The file of the program; undefined in a clone, whose launcher proves and builds it first, and on a machine that it is not for, unless the variable FAST_CHECK names one. */
function programFile(/** @type {Record<string, string | undefined>} */ { FAST_CHECK: named }) {
  return named || (isClone || !isForHere() ? undefined : PROGRAM);
}

// The reader of a command that names none: the program that reads folders itself, where it is there, but for folders that an earlier run noted as the compiler's.
const EITHER = 'either';
// Where it lies from the folder of the other program: in a package, and among what the gate builds.
const SOURCE_PROGRAMS = ['fast-check-source', 'fast_check_source', '../../fast_check_source/out/fast_check_source'];

/** The file of the program that reads folders itself: that of the variable FAST_CHECK_SOURCE, else the one beside the other program. Null where there is none. */
function sourceProgramFile(/** @type {Record<string, string | undefined>} */ { FAST_CHECK_SOURCE: named, FAST_CHECK: other }) {
  if (named || !isForHere()) return named || null;
  const folder = path.dirname(other || PROGRAM);
  return SOURCE_PROGRAMS.map((name) => path.join(folder, name)).find((file) => fs.existsSync(file)) || null;
}

/** A program by what changes where it is written, since it is too large to be read each time; null where it is not known, or not there. */
function stampOf(/** @type {string | null | undefined} */ file) {
  if (!file) return null;
  try {
    const { mtimeMs, ctimeMs, size, ino } = fs.statSync(file);
    return `${file} ${mtimeMs} ${ctimeMs} ${size} ${ino}`;
  } catch {
    // Which the run itself says.
    return null;
  }
}

/** The stamp of the program that is sent what this tool reads; null as of any program. */
function programStamp(/** @type {Record<string, string | undefined>} */ environment) {
  return stampOf(programFile(environment));
}

module.exports = { EITHER, PLATFORM, isForHere, programStamp, sourceProgramFile, stampOf };
