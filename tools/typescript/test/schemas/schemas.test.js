'use strict';
// Whether the schemas of tools/schemas say what goes in and out. Needs Debian's node-ajv, by NODE_PATH=/usr/share/nodejs.
const assert = require('assert');
const childProcess = require('child_process');
const fs = require('fs');
const path = require('path');
const { describe, it } = require('node:test');

const { inputOf } = require('../../src/program/input.js');
const { sourceProgramFile } = require('../../src/program/program.js');
const { requestText } = require('../../src/program/request.js');
const { run, PACKAGES } = require('../support/helpers.js');

const TOP = path.resolve(__dirname, '../../../..');
const SOURCE_PROGRAM = sourceProgramFile(process.env);
const TOOL = path.resolve(__dirname, '../../bin/fast-check-ts.js');
/** @typedef {((value: unknown) => boolean) & { errors: object[] }} Validate */
/** @typedef {{ getSchema(name: string): Validate | undefined, compile(schema: object): Validate, errorsText(errors: object[]): string }} Checker */
/** @type {(new (options: object) => Checker) | null} */
let Ajv = null;
try {
  // Its types are not there.
  const name = 'ajv';
  Ajv = require(name);
} catch {
  // It is not there: the tests are skipped.
}

const read = (/** @type {string} */ file) => JSON.parse(fs.readFileSync(path.join(TOP, file), 'utf8'));

const objects = (/** @type {string} */ out) => out.split('\n').filter(Boolean).map((line) => JSON.parse(line));

describe('schemas', { skip: Ajv ? false : "Debian's node-ajv is not there" }, () => {
  const ajv = /** @type {Checker} */ (Ajv && new Ajv({ schemas: ['program', 'tool', 'settings'].map((name) => ({ $id: `${name}.json`, ...read(`tools/schemas/${name}.json`) })) }));

  /** What is wrong with a value by a definition; null where nothing is. */
  function wrong(/** @type {string} */ definition, /** @type {unknown} */ value) {
    const validate = ajv.getSchema(definition) || ajv.compile({ $ref: definition });
    return validate(value) ? null : ajv.errorsText(validate.errors.slice(0, 3));
  }

  it('fit the examples', () => {
    const inputs = { first: 'Transform', functions: 'Transform', classes: 'Transform', modules: 'Transform', namespaces: 'Transform', build_hello: 'Build', build_canvas: 'Build', pair: 'Pair' };
    for (const [name, kind] of Object.entries(inputs)) {
      assert.strictEqual(wrong(`program.json#/definitions/${kind}Input`, read(`examples/${name}.json`)), null, name);
      assert.strictEqual(wrong(`program.json#/definitions/${kind}Answer`, read(`examples/${name}.answer.json`)), null, name);
    }
  });

  it('fit the input of each stored package', () => {
    for (const name of fs.readdirSync(PACKAGES)) {
      const { request } = inputOf(path.join(PACKAGES, name));
      const input = request && JSON.parse(requestText(request));
      if (input) assert.strictEqual(wrong('program.json#/definitions/BuildInput', input), null, name);
    }
  });

  it('fit what the program that reads folders asks of each of them', { skip: !SOURCE_PROGRAM && 'fast-check-source is not built' }, () => {
    const names = fs.readdirSync(PACKAGES).filter((name) => name !== 'deep');
    const { stdout } = childProcess.spawnSync(SOURCE_PROGRAM || '', ['--input', ...names.map((name) => path.join(PACKAGES, name))], { encoding: 'utf8', maxBuffer: 1 << 30 });
    const inputs = objects(stdout);
    assert.strictEqual(inputs.length, names.length);
    for (const [at, { input }] of inputs.entries()) assert.strictEqual(wrong('program.json#/definitions/BuildInput', input), null, names[at]);
  });

  it('refuse what is none', () => {
    const input = read('examples/first.json');
    /** @type {((it: any) => void)[]} */
    const changes = [
      (it) => delete it.module.specifier, (it) => { it.module.source.media_type = 'Text'; }, (it) => { it.ranges = [[1]]; }, (it) => { it.graph = null; },
      (it) => { it.module.source.program = { Module: { span: [1, 2], body: [{ Stmt: { Nothing: {} } }] } }; }, (it) => { it.module.symbols[0].id = '0'; },
    ];
    for (const change of changes) {
      const changed = structuredClone(input);
      change(changed);
      assert.notStrictEqual(wrong('program.json#/definitions/TransformInput', changed), null, String(change));
    }
  });

  it('fit the lines of the tool', async () => {
    for (const name of ['several-messages', 'syntax-error', 'fixed-workspace', 'unresolved-import', 'workspace-messages']) {
      const { out } = await run(['check', '--json', '--list-externals', '.'], { cwd: path.join(PACKAGES, name) });
      for (const line of objects(out)) assert.strictEqual(wrong('tool.json#/definitions/CheckLine', line), null, name);
    }
    for (const line of objects((await run(['diff', '--json', 'instead-constant', 'apart-constant'])).out)) assert.strictEqual(wrong('tool.json#/definitions/DiffLine', line), null);
    const asked = [{ dir: 'classes' }, { dir: 'several-messages', want: 'skeletons' }, { dir: 'dts', want: 'declarations' }, { dir: 'nowhere' }, { dir: 1 }];
    const input = asked.map((it) => `${JSON.stringify(it)}\n`).join('');
    const answers = objects(childProcess.spawnSync(process.execPath, [TOOL, 'serve'], { cwd: PACKAGES, input, encoding: 'utf8' }).stdout);
    assert.deepStrictEqual(asked.map((it) => wrong('tool.json#/definitions/ServeRequest', it) === null), [true, true, true, true, false]);
    for (const answer of answers) assert.strictEqual(wrong('tool.json#/definitions/ServeAnswer', answer), null);
    assert.deepStrictEqual(answers.map(({ status }) => status), [0, 1, 0, 2, 2]);
  });

  it('fit settings', () => {
    assert.strictEqual(wrong('settings.json', { exports: './mod.ts', allow: ['missing-module'], baseline: 'known.jsonl' }), null);
    for (const settings of [{ export: './mod.ts' }, { allow: 'missing-module' }, { baseline: 1 }, []]) assert.notStrictEqual(wrong('settings.json', settings), null);
  });
});
