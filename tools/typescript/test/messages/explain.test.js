'use strict';
// Codes: the pages that explain them, of which each code has one with examples that are what they say, and the program's texts.
const assert = require('assert');
const childProcess = require('child_process');
const fs = require('fs');
const os = require('os');
const path = require('path');
const { describe, it } = require('node:test');
const { check } = require('../../src/api/index.js');
const { CODES, PROGRAM, RETURNS, namesIn } = require('../../src/messages/codes.js');

const ERRORS = path.resolve(__dirname, '../../../../docs/errors');
const TOOL = path.resolve(__dirname, '../../bin/fast-check-ts.js');
const pageOf = (/** @type {string} */ code) => fs.readFileSync(path.join(ERRORS, `${code}.md`), 'utf8');

/** The codes of the messages about a module. */
async function codesOf(/** @type {string} */ text) {
  const folder = fs.mkdtempSync(path.join(os.tmpdir(), 'fast-check-page-'));
  try {
    fs.writeFileSync(path.join(folder, 'mod.ts'), text);
    const { messages } = await check(folder, { cache: false });
    return messages.map(({ code }) => code);
  } finally {
    fs.rmSync(folder, { recursive: true });
  }
}

describe('docs/errors', () => {
  const codes = [...Object.keys(CODES), 'typescript'].sort();

  it('has a page for each code, and no other', () => {
    assert.deepStrictEqual(fs.readdirSync(ERRORS).sort(), codes.map((code) => `${code}.md`));
  });

  for (const code of codes) {
    it(code, async () => {
      const page = pageOf(code);
      assert.ok(page.startsWith(`# ${code}\n`));
      assert.ok(page.split(/\s+/).filter(Boolean).length <= 80, 'at most 80 words');
      const [wrong, right] = [...page.matchAll(/```ts\n([^]*?)```/g)].map(([, text]) => text);
      if (wrong !== undefined) assert.ok((await codesOf(wrong)).includes(code), `the first example has ${code}`);
      if (right !== undefined) assert.deepStrictEqual(await codesOf(right), []);
    });
  }
});

describe('explain', () => {
  const run = (/** @type {string[]} */ ...words) => childProcess.spawnSync(process.execPath, [TOOL, 'explain', ...words], { encoding: 'utf8' });

  it('prints the page', () => {
    assert.strictEqual(run('missing-explicit-type').stdout, pageOf('missing-explicit-type'));
    assert.strictEqual(run('typescript-2304').stdout, pageOf('typescript'));
  });

  it('says what may be meant', () => {
    const { status, stderr } = run('missing-explicit-typo');
    assert.strictEqual(status, 2);
    assert.match(stderr, /there is no code missing-explicit-typo; did you mean missing-explicit-type\?/);
  });
});

describe('the table of codes', () => {
  const read = (/** @type {string} */ file) => fs.readFileSync(path.resolve(__dirname, '../../../../crates/fast_check_tables_diagnostics/src', file), 'utf8');

  it('has the texts of the program', () => {
    const texts = read('diagnostics/texts.rt');
    const [, reference = ''] = /IS_REFERENCE: &str = "(.*)"/.exec(texts) || [];
    const rows = [...texts.matchAll(/ code: "(.*)",[^]*? range_description: (?:None|Some\((?:"(.*)"|IS_REFERENCE)\)),/g)];
    const label = (/** @type {RegExpMatchArray} */ [whole, , written]) => written || (whole.includes('IS_REFERENCE') ? reference : undefined);
    const known = rows.filter(([, code]) => PROGRAM[code]);
    assert.deepStrictEqual(known.map((row) => [row[1], label(row)]).sort(), Object.entries(PROGRAM).map(([code, it]) => [code, it.label]).sort());
    const written = read('diagnostics.rt');
    for (const { message } of Object.values(PROGRAM)) assert.ok(message === undefined || written.includes(`"${message}"`), message);
    for (const text of Object.values(RETURNS)) assert.ok(texts.includes(`"${text}"`), text);
  });

  it('finds names in messages', () => {
    assert.deepStrictEqual(namesIn('not-found-reference', "could not resolve 'N.A' referenced from 'f'"), { name: 'N.A', referrer: 'f' });
    const text = 'public API member (C.part) is referencing or transitively referencing a class private member (C.own)';
    assert.deepStrictEqual(namesIn('unsupported-private-member-reference', text), { referrer: 'C.part', name: 'C.own' });
    assert.deepStrictEqual(namesIn('export-not-found', 'export not found: a'), {});
  });
});
