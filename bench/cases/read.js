// The trees of TypeScript texts, as tools/typescript reads them: takes [[file name, text], ..] as JSON on its input, and prints the version of the compiler and for
// each text its program, or null where the compiler does not read it.
'use strict';
const fs = require('fs');
const { ts } = require('../../tools/typescript/src/compiler/typescript.js');
const { parse, toTree } = require('../../tools/typescript/src/tree/index.js');

/** The program of a text, or null. */
function programOf(name, text) {
  const { program, errors } = toTree(parse(name, text), { short: false });
  return errors.length ? null : program;
}

const programs = JSON.parse(fs.readFileSync(0, 'utf8')).map(([name, text]) => programOf(name, text));
process.stdout.write(JSON.stringify({ version: ts.version, programs }));
