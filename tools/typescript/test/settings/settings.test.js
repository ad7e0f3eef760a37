'use strict';
// The settings of a package, and the options of `check` that go by files.
const assert = require('assert');
const fs = require('fs');
const path = require('path');
const { describe, it } = require('node:test');
const { run: runIn, withFolder } = require('../support/helpers.js');

/** @typedef {(...words: string[]) => Promise<{ status: number, out: string, err: string, codes: string[] }>} Run */

const SLOW = 'export const a = Math.random();\nexport function b() { return a; }\n';

/** Calls with a function that runs commands in a folder of some files. */
function withFiles(/** @type {Record<string, string | object>} */ files, /** @type {(run: Run, folder: string) => Promise<void>} */ call) {
  return withFolder((folder) => {
    for (const [name, text] of Object.entries(files)) {
      fs.mkdirSync(path.dirname(path.join(folder, name)), { recursive: true });
      fs.writeFileSync(path.join(folder, name), typeof text === 'string' ? text : JSON.stringify(text));
    }
    return call(async (...words) => {
      const ran = await runIn([...words, '--no-cache'], { cwd: folder });
      return { ...ran, codes: ran.out.split('\n').filter((line) => line.startsWith('{')).map((line) => JSON.parse(line).code).filter(Boolean) };
    }, folder);
  });
}

const config = (/** @type {object} */ nagdrez) => ({ name: '@me/it', version: '1.0.0', exports: './built.d.ts', nagdrez });

describe('settings', () => {
  it('name entry points, allowed codes and a baseline', () => withFiles({ 'package.json': config({ exports: './code/it.ts', allow: ['missing-explicit-type'] }), 'code/it.ts': SLOW }, async (run, folder) => {
    assert.deepStrictEqual((await run('check', '--json')).codes, ['missing-explicit-return-type']);
    fs.writeFileSync(path.join(folder, 'known.jsonl'), (await run('check', '--json')).out);
    fs.writeFileSync(path.join(folder, 'package.json'), JSON.stringify(config({ exports: './code/it.ts', baseline: 'known.jsonl' })));
    assert.deepStrictEqual((await run('check', '--json')).codes, ['missing-explicit-type']);
    assert.ok(!(await run('check', '--json', '--no-ignore')).codes.includes('missing-explicit-return-type'), 'of strangers no entry point counts');
  }));

  it('are those of each member of a workspace', () => withFiles({
    'package.json': { workspaces: ['a', 'b'] }, 'a/package.json': { name: 'a', nagdrez: { allow: ['missing-explicit-type'] } }, 'a/mod.ts': SLOW, 'b/package.json': { name: 'b' }, 'b/mod.ts': SLOW,
  }, async (run) => {
    assert.deepStrictEqual((await run('check', '--json')).codes.sort(), ['missing-explicit-return-type', 'missing-explicit-return-type', 'missing-explicit-type']);
  }));

  it('are refused where they are none', async () => {
    for (const nagdrez of [{ allow: ['nope'] }, { allow: 'missing-module' }, { baseline: '../known.jsonl' }, { baseline: '/known.jsonl' }, { other: 1 }, []]) {
      await withFiles({ 'package.json': config(nagdrez), 'mod.ts': SLOW }, async (run) => {
        const { status, codes } = await run('check', '--json');
        assert.deepStrictEqual([status, codes], [2, ['bad-configuration']], JSON.stringify(nagdrez));
      });
    }
  });
});

describe('files', () => {
  const files = { 'deno.json': { name: '@me/it', exports: './mod.ts' }, 'mod.ts': `export * from "./other.ts";\n${SLOW}`, 'other.ts': 'export function other() { return Math.random(); }\n', 'hidden.ts': 'export const c = Math.random();\n' };

  it('are those whose messages are reported', () => withFiles(files, async (run) => {
    assert.deepStrictEqual((await run('check', '--json', '--only', 'other.ts')).codes, ['missing-explicit-return-type']);
    assert.strictEqual((await run('check', '--only', 'other.ts', 'mod.ts')).status, 1);
    assert.strictEqual((await run('check', '--only', 'hidden.ts')).status, 0);
    assert.strictEqual((await run('check', '--only', '.')).status, 2);
  }));

  it('are those whose types are written', () => withFiles(files, async (run, folder) => {
    const { status, err } = await run('check', '--only', '--fix', 'other.ts');
    assert.deepStrictEqual([status, err], [0, '1 type written in 1 file\n']);
    assert.match(fs.readFileSync(path.join(folder, 'other.ts'), 'utf8'), /other\(\): number/);
    assert.strictEqual(fs.readFileSync(path.join(folder, 'mod.ts'), 'utf8'), files['mod.ts']);
    assert.strictEqual((await run('check', '--fix')).status, 0);
  }));
});

describe('a badge', () => {
  it('counts errors', async () => {
    await withFiles({ 'mod.ts': SLOW }, async (run) => assert.deepStrictEqual(JSON.parse((await run('check', '--format', 'badge')).out), { schemaVersion: 1, label: 'slow types', message: '2', color: 'orange' }));
    await withFiles({ 'mod.ts': 'export const a = 1;\n' }, async (run) => assert.strictEqual(JSON.parse((await run('check', '--format', 'badge')).out).message, 'none'));
    await withFiles({ 'mod.ts': 'export const = 1;\n' }, async (run) => assert.strictEqual(JSON.parse((await run('check', '--format', 'badge')).out).message, 'not read'));
  });
});
