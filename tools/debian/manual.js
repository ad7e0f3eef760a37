'use strict';
// Prints a manual page of the package, with its date, its version, and the commands and options that `fast-check-ts --help` lists:
//
//   node tools/debian/manual.js PAGE VERSION DATE
const fs = require('fs');
const { USAGE } = require('../typescript/src/cli/options.js');

// What the package does not have: a program without proof beside its own.
const LEFT_OUT = ['--unproved'];

/** A text as roff reads it. */
function escaped(text) {
  return text.replace(/\\/g, '\\e').replace(/-/g, '\\-').replace(/^[.']/, '\\&$&');
}

/** The entries of `--help` whose words begin as a pattern says, each as its words and its text, which may go on in further lines. */
function entries(pattern) {
  const found = [...USAGE.matchAll(/^ {2}(\S.*?) {2,}(\S.*(?:\n {3,}\S.*)*)$/gm)];
  return found.map(([, words, text]) => ({ words, text: text.replace(/\s+/g, ' ') })).filter(({ words }) => pattern.test(words) && !LEFT_OUT.includes(words));
}

/** Entries as roff: the words in bold, those in capitals, which stand for others, in italics. */
function list(pattern) {
  const entry = ({ words, text }) => {
    const [first, ...rest] = words.split(' ');
    const shown = [`\\fB${escaped(first)}\\fR`, ...rest.map((word) => `\\fI${escaped(word)}\\fR`)].join(' ');
    return `.TP\n${shown}\n${escaped(text)}`;
  };
  return entries(pattern).map(entry).join('\n');
}

const [page, version, date] = process.argv.slice(2);
const parts = { '@COMMANDS@': list(/^[a-z]/), '@OPTIONS@': list(/^-/), '@VERSION@': version, '@DATE@': date };
process.stdout.write(fs.readFileSync(page, 'utf8').replace(/@[A-Z]+@/g, (name) => parts[name]));
