'use strict';
// What programs call.
const assert = require('assert');
const childProcess = require('child_process');
const fs = require('fs');
const os = require('os');
const path = require('path');
const { after, before, describe, it } = require('node:test');
const { check, diff, fix, skeleton, version } = require('../../src/api/index.js');

const PACKAGES = path.resolve(__dirname, '../packages');
const TOOL = path.resolve(__dirname, '../../bin/fast-check-ts.js');
const of = (/** @type {string} */ name) => path.join(PACKAGES, name);
let folder = '';

before(() => {
  folder = fs.mkdtempSync(path.join(os.tmpdir(), 'fast-check-api-'));
  process.env.XDG_CACHE_HOME = path.join(folder, 'cache');
});
after(() => fs.rmSync(folder, { recursive: true, force: true }));

describe('check', () => {
  it('answers what the command reports', async () => {
    for (const name of ['classes', 'several-messages', 'workspace-messages', 'syntax-error', 'missing-import']) {
      const { status, messages } = await check(of(name));
      const done = childProcess.spawnSync(process.execPath, [TOOL, 'check', '--json', '.'], { cwd: of(name), encoding: 'utf8' });
      assert.strictEqual(status, done.status, name);
      const lines = done.stdout.split('\n').filter(Boolean).map((line) => JSON.parse(line));
      assert.deepStrictEqual(messages, lines.filter(({ code }) => code), name);
    }
  });

  it('says why a folder cannot be read', async () => {
    const { status, reason, packages } = await check(of('syntax-error'));
    assert.deepStrictEqual([status, packages], [2, []]);
    assert.match(reason || '', /cannot be read by TypeScript/);
    await assert.rejects(check(path.join(folder, 'nowhere')), /there is no folder/);
  });

  it('takes options', async () => {
    const allowed = await check(of('several-messages'), { allow: ['missing-explicit-return-type'] });
    assert.ok(allowed.messages.length && !allowed.messages.some(({ code }) => code === 'missing-explicit-return-type'));
    assert.ok((await check(of('ignored'))).messages.length < (await check(of('ignored'), { comments: false })).messages.length);
    assert.strictEqual((await check(of('single-returns'), { rules: 'deno' })).status, 1);
    assert.strictEqual((await check(of('apart-alias'), { verify: true })).status, 1);
    const text = 'export const typed: number = 1;\n';
    assert.deepStrictEqual((await check(of('missing-type'), { texts: new Map([[path.join(of('missing-type'), 'mod.ts'), text]]) })).messages, []);
    assert.deepStrictEqual((await check(of('missing-type'), { name: '@me/other', version: '2.0.0' })).packages, [{ name: '@me/other', version: '2.0.0' }]);
  });

  it('ends early, and leaves nothing behind', async () => {
    const aborted = new AbortController();
    aborted.abort();
    await assert.rejects(check(of('classes'), { signal: aborted.signal }), { name: 'AbortError' });
    const controller = new AbortController();
    const slow = path.join(folder, 'slow');
    fs.writeFileSync(slow, '#!/bin/sh\nexec sleep 60\n', { mode: 0o755 });
    const asked = check(of('classes'), { program: slow, signal: controller.signal });
    setTimeout(() => controller.abort(), 500);
    await assert.rejects(asked, { name: 'AbortError' });
  });

  it('throws where there is no program', () => assert.rejects(check(of('classes'), { program: path.join(folder, 'none') }), { status: 5 }));

  it('may be called many times at once', async () => {
    const names = ['classes', 'functions', 'enums', 'fixed', 'workspace'];
    const one = [];
    for (const name of names) one.push(await check(of(name)));
    assert.deepStrictEqual(await Promise.all(names.map((name) => check(of(name)))), one);
  });
});

describe('skeleton', () => {
  it('answers skeletons and declaration files', async () => {
    const { status, modules } = await skeleton(of('classes'));
    const stored = fs.readFileSync(path.resolve(__dirname, '../expected/classes.txt'), 'utf8');
    assert.deepStrictEqual([status, modules.length, modules[0].path, modules[0].isPreview], [0, 1, 'mod.ts', false]);
    assert.ok(stored.includes(modules[0].text.trimEnd()));
    const { modules: [declared] } = await skeleton(of('classes'), { declarations: true });
    assert.ok(declared.path === 'mod.d.ts' && declared.text.includes('export declare '));
    const { modules: shown } = await skeleton(of('preview'));
    assert.ok(shown.length && shown.every(({ isPreview }) => isPreview));
    assert.deepStrictEqual((await skeleton(of('syntax-error'))).modules, []);
  });
});

describe('fix', () => {
  it('answers texts, and writes them where it is asked to', async () => {
    const copy = path.join(folder, 'copy');
    fs.cpSync(of('fixed'), copy, { recursive: true });
    const { texts, types } = await fix(copy);
    assert.ok(types > 3 && texts.size === 2);
    for (const [file, text] of texts) assert.notStrictEqual(fs.readFileSync(file, 'utf8'), text);
    const written = await fix(copy, { write: true });
    for (const [file, text] of texts) assert.strictEqual(fs.readFileSync(file, 'utf8'), text);
    assert.strictEqual(written.types, types);
    assert.strictEqual((await fix(copy)).texts.size, 0);
  });

  it('ends early', async () => {
    const controller = new AbortController();
    const asked = fix(of('fixed'), { signal: controller.signal });
    setTimeout(() => controller.abort(), 20);
    await assert.rejects(asked, { name: 'AbortError' });
    assert.ok((await fix(of('fixed'))).types > 3);
  });
});

describe('diff', () => {
  it('answers the advice and the names', async () => {
    const { advice, changes, notCompared } = await diff(of('instead-constant'), of('apart-constant'));
    assert.deepStrictEqual([advice, changes.map(({ name }) => name), notCompared], ['patch', ['count', 'Counter'], ['what the code does']]);
    await assert.rejects(diff(of('syntax-error'), of('classes')), { status: 2 });
  });
});

describe('the package', () => {
  it('has the version of the repository', () => assert.strictEqual(version, fs.readFileSync(path.resolve(__dirname, '../../../../VERSION'), 'utf8').trim()));

  it('prints nothing and does not end the process', () => {
    const script = `const { check, fix } = require(${JSON.stringify(path.resolve(__dirname, '../../src/api/index.js'))});
      (async () => { await check(${JSON.stringify(of('syntax-error'))}); await fix(${JSON.stringify(of('fixed'))}); process.stdout.write('end'); })();`;
    const { stdout, stderr, status } = childProcess.spawnSync(process.execPath, ['-e', script], { encoding: 'utf8' });
    assert.deepStrictEqual([stdout, stderr, status], ['end', '', 0]);
  });
});
