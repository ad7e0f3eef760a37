'use strict';
// The commands on small packages, beside what is stored of them.
const fs = require('fs');
const { test } = require('node:test');
const { same, holds, readOr } = require('./support/helpers.js');
const { NAMES, READS_ALL, isCompared, expectedOf, said } = require('./support/stored.js');

for (const name of NAMES) {
  const file = expectedOf(name);
  test(`package ${name}`, { skip: !isCompared(name) && 'TypeScript reads some of its forms alone' }, async () => same(await said(name), readOr(file, '(nothing is stored)'), file));
}

/** The diagnostics that a package can have. */
const CODES = [
  ...(READS_ALL ? ['unsupported-using'] : []),
  'not-found-reference', 'missing-explicit-type', 'missing-explicit-return-type', 'unsupported-ambient-module', 'unsupported-complex-reference',
  'unsupported-default-export-expr', 'unsupported-destructuring', 'unsupported-expando-property', 'unsupported-global-module', 'unsupported-require',
  'unsupported-private-member-reference', 'unsupported-super-class-expr', 'unsupported-ts-export-assignment', 'unsupported-ts-namespace-export',
  'unsupported-nested-javascript', 'unsupported-javascript-entrypoint',
];

const all = NAMES.map((name) => readOr(expectedOf(name), '')).join('\n');
for (const code of CODES) test(`some package has ${code}`, () => holds(all.includes(`[${code}]`), 'no stored message has it'));
