'use strict';
// Makes inputs of `build` from TypeScript's own tests, and lists them:
//
//   node bench/original/test_inputs.js CASES OUT STEP [FIRST] > LIST        CASES is the folder `tests/cases` of TypeScript's source; each STEP-th test is taken
//   bench/original/compare.py PROGRAM ORIGINAL --list LIST
//
// A test is a package whose entry points are all of its files: those that lines `// @filename: NAME` part it into, else one. What the compiler does not read
// makes no input.
const fs = require('fs');
const os = require('os');
const path = require('path');
const { inputOf } = require('../../tools/typescript/src/program/input.js');
const { requestText } = require('../../tools/typescript/src/program/request.js');

const NAMED = /^\/\/\s*@filename:\s*(.*?)\s*$/gim;

/** The tests below a folder, in the order of their names. */
function testsBelow(folder) {
  return fs.readdirSync(folder, { withFileTypes: true }).sort((a, b) => (a.name < b.name ? -1 : 1)).flatMap((it) => {
    const at = path.join(folder, it.name);
    return it.isDirectory() ? testsBelow(at) : /\.tsx?$/.test(it.name) ? [at] : [];
  });
}

/** The files of a test: their names within the package, and their texts. */
function filesOf(test) {
  const text = fs.readFileSync(test, 'utf8');
  const marks = [...text.matchAll(NAMED)];
  if (!marks.length) return [[path.basename(test), text]];
  return marks.map((mark, at) => [path.posix.normalize(`/${mark[1]}`).slice(1), text.slice(mark.index + mark[0].length, marks[at + 1] ? marks[at + 1].index : undefined)]);
}

/** The input of a test, or null. */
function inputFor(test, folder) {
  const files = filesOf(test).filter(([name]) => /\.(?:[cm]?tsx?)$/.test(name));
  for (const [name, text] of files) {
    fs.mkdirSync(path.join(folder, path.dirname(name)), { recursive: true });
    fs.writeFileSync(path.join(folder, name), text);
  }
  const exports = Object.fromEntries(files.map(([name], at) => [at ? `./${at}` : '.', `./${name}`]));
  const { request } = inputOf(folder, { name: '@test/it', version: '1.0.0', exports });
  return request && requestText(request);
}

const [cases, out, step, first = 0] = process.argv.slice(2);
fs.mkdirSync(out, { recursive: true });
for (const [at, test] of testsBelow(cases).entries()) {
  if (at % Number(step) !== Number(first)) continue;
  const folder = fs.mkdtempSync(path.join(os.tmpdir(), 'fast-check-test-'));
  try {
    const text = inputFor(test, folder);
    const file = path.join(path.resolve(out), `${path.relative(cases, test).replace(/\W+/g, '-')}.json`);
    if (text) {
      fs.writeFileSync(file, text);
      process.stdout.write(`${file}\n`);
    }
  } catch (error) {
    process.stderr.write(`${test}: ${error.message.split('\n')[0]}\n`);
  } finally {
    fs.rmSync(folder, { recursive: true, force: true });
  }
}
