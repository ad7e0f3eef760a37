'use strict';
// The language server where there is no program that reads TypeScript: the compiler does.
const assert = require('assert');
const fs = require('fs');
const os = require('os');
const path = require('path');
const { describe, it } = require('node:test');
const { plain } = require('../../src/messages/message.js');
const { Progress } = require('../../src/cli/progress.js');
const { analyse } = require('../../src/program/answer.js');

// Beside a program that lies by itself there is no other.
const folder = fs.mkdtempSync(path.join(os.tmpdir(), 'fast-check-alone-'));
const alone = path.join(folder, 'fast-check');
fs.symlinkSync(path.resolve(process.env.FAST_CHECK || ''), alone);
process.on('exit', () => fs.rmSync(folder, { recursive: true, force: true }));
process.env.FAST_CHECK = alone;
delete process.env.FAST_CHECK_SOURCE;
// The same tests, by the compiler.
require('./lsp.test.js');

describe('a file whose tree alone is handed over', () => {
  const packages = path.resolve(__dirname, '../packages');

  it('has the messages of a whole check', async () => {
    let count = 0;
    for (const name of fs.readdirSync(packages)) {
      const cwd = path.join(packages, name);
      const asked = (/** @type {Set<string> | undefined} */ treesOf) => analyse(cwd, { treesOf }, { cwd, environment: process.env, progress: new Progress({ write: () => true }, false) });
      const messagesOf = (/** @type {import('../../src/program/types').World} */ world, /** @type {string} */ file) => [...world.warnings, ...world.broken, ...world.messages].map(plain).filter((it) => it.file && path.resolve(cwd, it.file) === file);
      const whole = await asked(undefined).catch(() => null);
      if (!whole) continue;
      for (const { path: file } of [...whole.files.values()].slice(0, 6)) {
        assert.deepStrictEqual(messagesOf(await asked(new Set([file])), file), messagesOf(whole, file), `${name} ${file}`);
        count += 1;
      }
    }
    assert.ok(count > 200, `${count} files`);
  });
});
