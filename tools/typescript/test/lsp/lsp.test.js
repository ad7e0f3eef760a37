'use strict';
// The language server, asked as editors ask it.
const assert = require('assert');
const fs = require('fs');
const os = require('os');
const path = require('path');
const { describe, it, before, after } = require('node:test');
const { pathToFileURL } = require('url');
const { changedText, editsBetween, offsetAt } = require('../../src/lsp/documents.js');
const { sourceProgramFile } = require('../../src/program/program.js');
const { Lines } = require('../../src/tree/lines.js');
const { Client, withFiles } = require('./client.js');

/** @typedef {import('../../src/lsp/types').CodeAction} CodeAction */
/** @typedef {import('../../src/lsp/types').Diagnostic} Diagnostic */
/** @typedef {import('../../src/lsp/types').TextEdit} TextEdit */
/** @typedef {CodeAction & { edit: NonNullable<CodeAction['edit']> }} Resolved */

const RESOLVES = { textDocument: { codeAction: { resolveSupport: { properties: ['edit'] } } } };
const SLOW = 'missing-explicit-return-type';
let cache = '';

before(() => {
  cache = fs.mkdtempSync(path.join(os.tmpdir(), 'fast-check-cache-'));
  process.env.XDG_CACHE_HOME = cache;
});
after(() => fs.rmSync(cache, { recursive: true, force: true }));

/** A text behind edits, which do not overlap. */
function edited(/** @type {string} */ text, /** @type {TextEdit[]} */ edits) {
  const lines = new Lines(text);
  const sorted = [...edits].sort((a, b) => offsetAt(lines, b.range.start) - offsetAt(lines, a.range.start));
  return sorted.reduce((made, { range, newText }) => made.slice(0, offsetAt(lines, range.start)) + newText + made.slice(offsetAt(lines, range.end)), text);
}

const FILES = {
  'mod.ts': 'export { two } from "./two.ts";\nexport const one = Math.random();\n',
  'two.ts': '// 𝒳 é\nexport const text = "𝒳", two = () => { return Math.random(); };\nfunction hidden() { return Math.random(); }\n',
};

describe('diagnostics', () => {
  it('come for all files of a package that is opened, in UTF-16', () => withFiles(FILES, async (client) => {
    const { capabilities, serverInfo } = await client.begin();
    assert.strictEqual(serverInfo.name, 'nagdrez');
    assert.strictEqual(capabilities.positionEncoding, 'utf-16');
    await client.until(() => client.shown('mod.ts').length && client.shown('two.ts').length, 'diagnostics');
    assert.deepStrictEqual(client.shown('mod.ts'), ['missing-explicit-type 1:13']);
    assert.deepStrictEqual(client.shown('two.ts'), [`${SLOW} 1:26`]);
    const [found] = client.diagnostics.get(client.uri('two.ts')) || [];
    assert.strictEqual(found.severity, 1);
    assert.match((found.codeDescription || { href: '' }).href, /^https:/);
    assert.match(found.message, /hint: add an explicit return type/);
    const [{ location }] = /** @type {NonNullable<Diagnostic['relatedInformation']>} */ (found.relatedInformation);
    assert.deepStrictEqual([location.uri, location.range.start], [client.uri('mod.ts'), { line: 0, character: 20 }]);
  }));

  it('follow unsaved text, by whole texts and by ranges', () => withFiles(FILES, async (client, folder) => {
    await client.begin();
    client.open('mod.ts', 'export const one: number = 1;\n');
    await client.until(() => client.diagnostics.has(client.uri('mod.ts')) === false && client.logs.length, 'the first check');
    client.change('mod.ts', { text: 'export function slow() { return Math.random(); }\n' });
    await client.until(() => client.shown('mod.ts').includes(`${SLOW} 0:16`), 'the edit');
    client.change('mod.ts', { range: { start: { line: 0, character: 20 }, end: { line: 0, character: 22 } }, text: '(𝒳: number): number' }, { range: { start: { line: 0, character: 0 }, end: { line: 0, character: 0 } }, text: '\n' });
    await client.until(() => !client.shown('mod.ts').length, 'what is typed');
    client.notify('textDocument/didClose', { textDocument: { uri: client.uri('mod.ts') } });
    await client.until(() => client.shown('mod.ts').includes('missing-explicit-type 1:13'), 'what the file holds');
    fs.writeFileSync(path.join(folder, 'mod.ts'), 'export const one = 1;\n');
    client.notify('workspace/didChangeWatchedFiles', { changes: [{ uri: client.uri('mod.ts'), type: 2 }] });
    await client.until(() => !client.shown('mod.ts').length && !client.shown('two.ts').length, 'what another program wrote');
  }));

  it('say that a source or a configuration cannot be read, and come back behind it', () => withFiles(FILES, async (client, folder) => {
    await client.begin();
    client.open('mod.ts', 'export const = 1;\n');
    await client.until(() => client.shown('mod.ts').some((each) => each.startsWith('syntax-error')), 'the syntax error');
    client.change('mod.ts', { text: 'export const a: number = 1;\n' });
    await client.until(() => !client.shown('mod.ts').length, 'the mended text');
    fs.writeFileSync(path.join(folder, 'deno.json'), '{');
    client.notify('workspace/didChangeWatchedFiles', { changes: [{ uri: client.uri('deno.json'), type: 2 }] });
    await client.until(() => client.shown('deno.json').some((each) => each.startsWith('bad-configuration')), 'the broken configuration');
  }));

  it('follow settings and folders', () => withFiles({ ...FILES, 'other/deno.json': '{"name": "@me/other", "exports": "./mod.ts"}', 'other/mod.ts': FILES['mod.ts'].split('\n')[1] }, async (client, folder) => {
    await client.begin({}, { initializationOptions: { allow: ['missing-explicit-type'] } });
    await client.until(() => client.shown('two.ts').length, 'diagnostics');
    assert.deepStrictEqual(client.shown('mod.ts'), []);
    client.notify('workspace/didChangeConfiguration', { settings: { nagdrez: {} } });
    await client.until(() => client.shown('mod.ts').length, 'what is no longer allowed');
    const uri = pathToFileURL(path.join(folder, 'other')).href;
    client.notify('workspace/didChangeWorkspaceFolders', { event: { added: [{ uri, name: 'other' }], removed: [] } });
    await client.until(() => client.shown('other/mod.ts').length, 'the other folder');
    client.notify('workspace/didChangeWorkspaceFolders', { event: { added: [], removed: [{ uri, name: 'other' }] } });
    await client.until(() => !client.shown('other/mod.ts').length, 'the end of the other folder');
  }));
});

describe('actions', () => {
  const at = (/** @type {number} */ line, /** @type {number} */ character) => ({ start: { line, character }, end: { line, character } });

  it('write one type, or all of a file', () => withFiles(FILES, async (client) => {
    await client.begin(RESOLVES);
    const text = 'import { two } from "./two.ts";\nexport const one = () => { return two(); };\nexport const other = two();\nexport const last: number = 1;\n';
    client.open('mod.ts', text);
    await client.until(() => client.shown('mod.ts').length === 2, 'both messages');
    const textDocument = { uri: client.uri('mod.ts') };
    /** @type {CodeAction[]} */
    const found = await client.request('textDocument/codeAction', { textDocument, range: at(2, 15), context: { diagnostics: [] } });
    assert.deepStrictEqual(found.map(({ title, edit }) => [title, edit]), [['Write the missing type', undefined], ['Write all missing types in this file', undefined]]);
    /** @type {Resolved[]} */
    const [one, all] = await Promise.all(found.map((action) => client.request('codeAction/resolve', action)));
    const textOf = (/** @type {Resolved} */ { edit }) => edited(text, edit.changes[textDocument.uri]);
    assert.strictEqual(textOf(one), text.replace('other =', 'other: number ='));
    assert.strictEqual(textOf(all), text.replace('other =', 'other: number =').replace('() =>', '(): number =>'));
    /** @type {CodeAction[]} */
    const onSave = await client.request('textDocument/codeAction', { textDocument, range: at(0, 0), context: { diagnostics: [], only: ['source.fixAll'] } });
    assert.deepStrictEqual(onSave.map(({ kind }) => kind), ['source.fixAll.nagdrez']);
    assert.deepStrictEqual(await client.request('textDocument/codeAction', { textDocument, range: at(3, 0), context: { diagnostics: [], only: ['quickfix'] } }), []);
  }));

  it('have their edits at once where the client cannot wait for them', () => withFiles(FILES, async (client) => {
    await client.begin();
    client.open('mod.ts', FILES['mod.ts']);
    await client.until(() => client.shown('mod.ts').length, 'the message');
    /** @type {Resolved[]} */
    const [{ edit }] = await client.request('textDocument/codeAction', { textDocument: { uri: client.uri('mod.ts') }, range: at(1, 14), context: { diagnostics: [] } });
    assert.match(edited(FILES['mod.ts'], edit.changes[client.uri('mod.ts')]), /one: number = /);
  }));

  it('are cancelled', () => withFiles(FILES, async (client) => {
    await client.begin();
    client.open('mod.ts', FILES['mod.ts']);
    await client.until(() => client.shown('mod.ts').length, 'the message');
    const asked = client.request('textDocument/codeAction', { textDocument: { uri: client.uri('mod.ts') }, range: at(1, 14), context: { diagnostics: [] } });
    client.notify('$/cancelRequest', { id: asked.id });
    await assert.rejects(asked, { code: -32800 });
  }));
});

describe('the protocol', () => {
  it('ends with 0 behind shutdown, and with 1 without', async () => {
    await withFiles(FILES, async (client) => {
      await assert.rejects(client.request('textDocument/codeAction', {}), { code: -32002 });
      await client.begin();
      await assert.rejects(client.request('initialize', {}), { code: -32600 });
      await assert.rejects(client.request('no/such', {}), { code: -32601 });
      assert.strictEqual(await client.end(), 0);
    });
    await withFiles(FILES, async (client) => {
      await client.begin();
      client.notify('exit');
      assert.strictEqual(await client.status, 1);
    });
    await withFiles(FILES, async (client) => {
      client.child.stdin.end();
      assert.strictEqual(await client.status, 1);
    });
  });

  for (const [variable, program] of [['FAST_CHECK', process.env.FAST_CHECK], ['FAST_CHECK_SOURCE', sourceProgramFile(process.env)]]) {
    it(`goes on behind a check of ${variable} that fails`, { skip: !program && 'the program is not built' }, () => withFiles(FILES, async (client, folder) => {
      const failing = path.join(folder, 'failing');
      fs.writeFileSync(failing, `#!/bin/sh\n[ -e ${folder}/mended ] && exec ${program} "$@"\nkill -SEGV $$\n`, { mode: 0o755 });
      const other = new Client(folder, { FAST_CHECK_SOURCE: undefined, [variable || '']: failing });
      try {
        await other.begin();
        await other.until(() => other.logs.some(({ type, message }) => type === 1 && /did not answer/.test(message)), 'the failure');
        fs.writeFileSync(path.join(folder, 'mended'), '');
        other.open('mod.ts', FILES['mod.ts']);
        await other.until(() => other.shown('mod.ts').length, 'what a later check says');
        assert.strictEqual(await other.end(), 0);
      } finally {
        other.child.kill('SIGKILL');
      }
    }));
  }

  it('passes over what is no message', () => withFiles(FILES, async (client) => {
    await client.begin();
    const wrong = ['Content-Length: 5\r\n\r\n{"a":', 'Length: 5\r\n\r\n', 'Content-Length: 2\r\n\r\n[]', 'Content-Length: 4\r\n\r\nnull'];
    for (const each of wrong) client.write(each);
    await client.until(() => client.refusals.length === 4, 'the refusals');
    assert.deepStrictEqual(client.refusals.map(({ code }) => code), [-32700, -32700, -32600, -32600]);
    client.write(`Content-Length: ${(1 << 28) + 1}\r\n\r\n`);
    for (let at = 0; at < 1 << 28; at += 1 << 22) client.write(Buffer.alloc(1 << 22, 120));
    client.write('x');
    await client.until(() => client.refusals.length === 5, 'the refusal of what is too long');
    assert.strictEqual(await client.end(), 0);
  }));
});

describe('edits and cancels without end', () => {
  /** Random numbers of a seed. */
  function randomOf(/** @type {number} */ seed) {
    let state = seed;
    return (/** @type {number} */ below) => {
      state = (Math.imul(state, 1664525) + 1013904223) >>> 0;
      return Math.floor((state / 2 ** 32) * below);
    };
  }

  it('leave the diagnostics of the last text', () => withFiles(FILES, async (client) => {
    const random = randomOf(Number(process.env.SEED || 7));
    await client.begin(RESOLVES);
    client.open('mod.ts', FILES['mod.ts']);
    let text = FILES['mod.ts'];
    const pieces = ['export const a = f();\n', 'export function b() { return a; }\n', '}', '{', '"', '`${', '\u{1d4b3}', '\n', '/*', '*/', '\r\n', ': number', '\ud800'];
    for (let count = 0; count < Number(process.env.COUNT || 300); count++) {
      const lines = new Lines(text);
      const positionIn = () => ({ line: random(lines.starts.length + 1), character: random(40) });
      const [start, end] = [positionIn(), positionIn()].sort((a, b) => offsetAt(lines, a) - offsetAt(lines, b));
      const change = random(5) ? { range: { start, end: random(3) ? start : end }, text: pieces[random(pieces.length)] } : { text: text.slice(0, random(text.length + 1)) };
      text = changedText(text, [change]);
      client.change('mod.ts', change);
      if (!random(10)) {
        const asked = client.request('textDocument/codeAction', { textDocument: { uri: client.uri('mod.ts') }, range: { start, end: start }, context: { diagnostics: [] } });
        asked.catch(() => {});
        if (random(2)) client.notify('$/cancelRequest', { id: asked.id });
      }
      if (!random(20)) client.write('Content-Length: 3\r\n\r\n{,}');
      if (!random(8)) await new Promise((resolve) => setTimeout(resolve, random(60)));
    }
    client.change('mod.ts', { text: 'export const last = Math.random();\n' });
    await client.until(() => client.shown('mod.ts').join() === 'missing-explicit-type 0:13', 'the last text');
    assert.deepStrictEqual(client.logs.filter(({ type }) => type === 1), []);
    assert.strictEqual(client.said, '');
    assert.strictEqual(await client.end(), 0);
  }));

  it('are made of two texts so that one becomes the other', () => {
    const random = randomOf(11);
    const textOf = () => Array.from({ length: random(12) }, () => ['a\n', 'b\n', '\n', 'c', '\r\n', 'é\n'][random(6)]).join('');
    for (let count = 0; count < 2000; count++) {
      const [one, other] = [textOf(), textOf()];
      assert.strictEqual(edited(one, editsBetween(one, other)), other);
    }
  });
});
