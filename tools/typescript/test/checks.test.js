'use strict';
// `check` of several folders and of files, in all formats, with what is left out, with what is kept between runs, and going on.
const childProcess = require('child_process');
const fs = require('fs');
const path = require('path');
const { sourceProgramFile } = require('../src/program/program.js');
const { githubCommand, junitSuites, sarifRun } = require('./support/formats.js');
const { run, untimed, same, holds, withFolder, write, readOr, cases, LAUNCHER, PACKAGES, DOCS, TOP } = require('./support/helpers.js');

/** @typedef {import('./support/helpers.js').Case} Case */
/** @typedef {import('./support/formats.js').Element} Element */
/** @typedef {{ code: string, file: string, line: number | string, column: number | string, level?: string, message?: string }} Said what `--json` says of a message */
/** @typedef {(...words: string[]) => Promise<import('./support/helpers.js').Ran>} Told */

const CONFIG = '{ "name": "@test/a", "version": "1.0.0", "exports": "./mod.ts" }';
const UNTYPED = 'export function f() { return Math.max(1); }\n';
const TYPED = 'export const a: number = 1;\n';
const SOURCE = sourceProgramFile(process.env);
const READERS = SOURCE ? ['typescript', 'source'] : ['typescript'];
// Errors, warnings, a message without a place, and one of a folder that cannot be read.
const FOLDERS = ['several-messages', 'unresolved-import', 'javascript-entry', 'variables', 'syntax-error'];

/**
 * The objects of a run with `--json`.
 *
 * @returns {Said[]}
 */
function objects(/** @type {string} */ out) {
  return out.split('\n').filter(Boolean).map((line) => JSON.parse(line));
}

/**
 * Tests of what is written.
 *
 * @returns {Case[]}
 */
function formats() {
  const wanted = async () => objects((await run(['check', '--json', ...FOLDERS])).out);
  const places = (/** @type {Said[]} */ all) => all.map(({ code, file, line, column }) => [code, file, line, column].join(' ')).join('\n');
  return [
    ['--format json is --json', async () => {
      const said = (/** @type {string[]} */ ...format) => run(['check', ...format, '--list-externals', ...FOLDERS]);
      const [one, other] = [await said('--json'), await said('--format', 'json')];
      same(JSON.stringify(one), JSON.stringify(other));
      same(one.status, 2, 'the status');
    }],
    ['--format github', async () => {
      const { out } = await run(['check', '--format=github', ...FOLDERS]);
      const lines = out.trimEnd().split('\n');
      const made = lines.slice(0, -1).map(githubCommand);
      const found = made.slice(0, -1).map(({ properties: { title, file, line, col } }) => ({ code: title, file, line, column: col }));
      same(places(found), places(await wanted()));
      same(made[made.length - 1].value, 'syntax-error cannot be read by TypeScript VERSION'.replace('VERSION', require('../src/compiler/typescript.js').version));
      holds(lines[lines.length - 1].startsWith('5 folders, '), 'the last line counts');
    }],
    ['--format sarif', async () => {
      const { results, invocations } = sarifRun((await run(['check', '--format=sarif', ...FOLDERS])).out);
      const placeOf = (/** @type {import('./support/formats.js').Location} */ { physicalLocation: { artifactLocation, region } }) => ({
        file: artifactLocation.uri, line: region ? region.startLine : '', column: region ? region.startColumn : '',
      });
      same(places(results.map(({ ruleId, locations: [each] }) => ({ code: ruleId, ...placeOf(each) }))), places(await wanted()));
      same(JSON.stringify(invocations.map((each) => [each.executionSuccessful, each.toolExecutionNotifications.length])), '[[false,1]]');
    }],
    ['--format junit', async () => {
      const suites = junitSuites((await run(['check', '--format=junit', ...FOLDERS])).out);
      same(suites.map(({ attributes: it }) => it.name).join(), FOLDERS.join());
      const messages = (await wanted()).filter(({ level }) => level === 'error').map(({ code, message }) => `${code} ${message}`);
      const failures = suites.flatMap(({ children }) => children).flatMap(({ children }) => children).filter(({ name }) => name === 'failure');
      same(failures.map(({ attributes: { type, message } }) => `${type} ${message}`).join('\n'), messages.join('\n'));
      holds(failures.every(({ text }) => text.includes('error[')), 'the whole message stands in each');
    }],
  ];
}

/**
 * Tests of what formats write otherwise, or leave out.
 *
 * @returns {Case[]}
 */
function escapes() {
  const places = (/** @type {Said[]} */ all) => all.map(({ code, file, line, column }) => [code, file, line, column].join(' ')).join('\n');
  return [
    ['names and texts that formats write otherwise', () => withFolder(async (folder) => {
      const name = 'a,b:c%0A&"<é 日>.ts';
      write(folder, { 'deno.json': CONFIG, 'mod.ts': `export * from ${JSON.stringify(`./${name}`)};`, [name]: `import "]]>&%25\x01::error::";\n${UNTYPED}` });
      const inside = { cwd: folder };
      const json = objects((await run(['check', '--json', '.'], inside)).out);
      const lines = (await run(['check', '--format=github', '.'], inside)).out.trimEnd().split('\n').slice(0, -1).map(githubCommand);
      same(places(lines.map(({ properties: { title, file, line, col } }) => ({ code: title, file, line, column: col }))), places(json));
      const { results } = sarifRun((await run(['check', '--format=sarif', '.'], inside)).out);
      same(results.map(({ locations: [it] }) => decodeURIComponent(it.physicalLocation.artifactLocation.uri)).join(), `${name},${name}`);
      const [suite] = junitSuites((await run(['check', '--format=junit', '.'], inside)).out);
      same(suite.children.map(({ attributes: it }) => it.file).join(), `mod.ts,${name},${name}`);
    })],
    ['an error in a skeleton has the source for its file, and no place in it', async () => {
      const { out } = await run(['check', '--verify', '--format=sarif', 'apart-qualified']);
      const { physicalLocation } = sarifRun(out).results.filter(({ ruleId }) => ruleId === 'typescript-2304')[0].locations[0];
      same(JSON.stringify(physicalLocation), '{"artifactLocation":{"uri":"apart-qualified/n.ts"}}');
    }],
  ];
}

/**
 * Tests of what is checked.
 *
 * @returns {Case[]}
 */
function targets() {
  return [
    ['several folders, one of which cannot be read', async () => {
      const { status, out, err } = await run(['check', 'variables', 'syntax-error', 'missing-type']);
      same(status, 2, 'the status');
      holds(out.includes('--> missing-type/mod.ts:') && err.includes('syntax-error cannot be read'), out + err);
      holds(/\n3 folders, 2 files, 1 public module, \d+ messages, 0\.00 s\n$/.test(out), out);
    }],
    ['a folder that is named twice is checked once', async () => {
      same((await run(['check', 'variables', './variables/'])).out, '1 file, 1 public module, 0 messages, 0.00 s\n');
    }],
    ['a file as an entry point', () => withFolder(async (folder) => {
      write(folder, { 'deno.json': CONFIG, 'mod.ts': TYPED, 'src/b.ts': 'export * from "../c.ts";', 'c.ts': UNTYPED, 'src/d.ts': UNTYPED });
      const told = async (/** @type {string[]} */ ...words) => (await run(['check', ...words], { cwd: folder })).out;
      same(await told('mod.ts'), '1 file, 1 public module, 0 messages, 0.00 s\n');
      holds(/--> c\.ts:1:17[^]*\n2 files, 1 message, /.test(await told('src/b.ts')), 'what a file leads to is checked');
      holds(/--> src\/d\.ts:1:17[^]*\n3 files, 2 messages, /.test(await told('src/b.ts', 'src/d.ts')), 'two files are two entry points');
      same(await told('mod.ts', '.', 'c.ts'), '1 file, 1 public module, 0 messages, 0.00 s\n');
      holds((await run(['check', 'deno.json'], { cwd: folder })).status < 3, 'a file that is no module');
    })],
    ['a file in no package', () => withFolder(async (folder) => {
      fs.writeFileSync(path.join(folder, 'a.ts'), UNTYPED);
      holds((await run(['check', 'a.ts'], { cwd: folder })).out.includes('--> a.ts:1:17'), 'it is checked');
    })],
  ];
}

const IGNORED = `// fast-check-ignore missing-explicit-type, missing-explicit-return-type -- a reason
export function f() { return Math.max(1); }
/** A class. */
// fast-check-ignore missing-explicit-return-type
export class C {
  /* fast-check-ignore missing-explicit-type */
  part = Math.max(1);
  call() { return Math.max(1); }
}
// fast-check-ignore missing-explicit-type
export function g() { return Math.max(2); }
export const last = Math.max(1); // fast-check-ignore missing-explicit-type
`;

/** A test in a folder with some files. */
function inside(/** @type {Record<string, string>} */ files, /** @type {(told: Told, folder: string) => Promise<void>} */ body) {
  return () => withFolder(async (folder) => {
    write(folder, { 'deno.json': CONFIG, ...files });
    await body((...words) => run(words, { cwd: folder }), folder);
  });
}

/**
 * Tests of what is left out.
 *
 * @returns {Case[]}
 */
function leftOut() {
  return [
    ['warnings alone are no error', inside({ 'mod.ts': 'import "a";\nimport "b";\nexport {};\n' }, async (told) => {
      same((await told('check', '.')).status, 0, 'the status');
      same((await told('check', '--max-warnings', '2', '.')).status, 0, 'the status of as many as may be');
      same((await told('check', '--max-warnings=1', '.')).status, 1, 'the status of one more');
      same((await told('check', '--max-warnings=1', '--allow', 'unresolved-import', '.')).status, 0, 'the status where they are allowed');
    })],
    ['--allow', inside({ 'mod.ts': `${UNTYPED}export const a = Math.max(1);\nimport "a";\n` }, async (told) => {
      const { status, out } = await told('check', '--allow', 'missing-explicit-type', '--allow=unresolved-import', '.');
      same(status, 1, 'the status');
      holds(!out.includes('[missing-explicit-type]') && out.includes('[missing-explicit-return-type]') && /, 1 message, 2 allowed, 0\.00 s\n$/.test(out), out);
      const all = await told('check', '--json', '--allow', 'missing-explicit-type', '--allow=missing-explicit-return-type', '.');
      same(all.status, 0, 'the status where all are allowed');
    })],
    ['comments above declarations', inside({ 'mod.ts': IGNORED }, async (told) => {
      const { status, out } = await told('check', '--json', '.');
      same(status, 1, 'the status');
      same(objects(out).map(({ code, line }) => `${code} ${line}`).join(), 'missing-explicit-return-type 11,missing-explicit-type 12');
      holds(/, 2 messages, 3 allowed, /.test((await told('check', '.')).out), 'the last line counts those that are allowed');
      holds(/, 5 messages, 0\.00 s/.test((await told('check', '--no-ignore', '.')).out), 'with --no-ignore all are reported');
    })],
    ['what keeps a package from being read is not allowed', inside({ 'mod.ts': '// fast-check-ignore syntax-error\nexport const a = ;\n' }, async (told) => {
      same((await told('check', '.')).status, 2, 'the status');
    })],
  ];
}

/**
 * Tests of what is known, and of the closing lines.
 *
 * @returns {Case[]}
 */
function known() {
  return [
    ['a baseline', inside({ 'mod.ts': `${UNTYPED}${UNTYPED.replace('f()', 'g()')}` }, async (told, folder) => {
      const file = path.join(folder, 'known.jsonl');
      fs.writeFileSync(file, (await told('check', '--json', '--list-externals', '.')).out);
      const again = await told('check', '--baseline', 'known.jsonl', '.');
      same(`${again.status} ${again.out}`, '0 1 file, 0 messages, 2 known, 0.00 s\n');
      fs.writeFileSync(path.join(folder, 'mod.ts'), `${UNTYPED.replace('f()', 'h()')}${UNTYPED}${UNTYPED.replace('f()', 'g()')}`);
      const more = await told('check', '--baseline=known.jsonl', '--json', '.');
      same(`${more.status} ${objects(more.out).map(({ line }) => line).join()}`, '1 3');
      fs.writeFileSync(file, '');
      same(objects((await told('check', '--baseline=known.jsonl', '--json', '.')).out).length, 3, 'what an empty baseline leaves');
    })],
    ['closing lines', inside({ 'mod.ts': UNTYPED, 'b.ts': 'import a = require("a");\nexport { a };\n', 'c.ts': 'import "a";' }, async (told) => {
      const [fixable, other, warning] = [(await told('check', '.')).out, (await told('check', 'b.ts')).out, (await told('check', 'c.ts')).out];
      holds(/\nThese are slow types, [^]*\n`fast-check-ts fix` writes those [^]*\n\n1 file, 1 message, 0\.00 s\n$/.test(fixable), fixable);
      holds(/\nThese are slow types, /.test(other) && !other.includes('fix'), other);
      holds(!warning.includes('slow types'), warning);
    })],
  ];
}

/** Waits until a text comes that a pattern fits, and answers how long that took. */
function until(/** @type {childProcess.ChildProcessWithoutNullStreams} */ child, /** @type {{ text: string; all: string; }} */ said, /** @type {RegExp} */ pattern) {
  const begun = Date.now();
  return new Promise((resolve, reject) => {
    const look = () => {
      if (pattern.test(said.text)) resolve(Date.now() - begun);
      else if (Date.now() - begun > 120000) reject(new Error(`no ${pattern} comes of\n${said.text}`));
      else setTimeout(look, 10);
    };
    child.once('exit', (status) => reject(new Error(`it ended with ${status}:\n${said.text}`)));
    look();
  });
}

/**
 * Tests of checks that go on. The program's input lies in the folder that is watched.
 *
 * @returns {Case[]}
 */
function going() {
  return [['--watch', () => withFolder(async (folder) => {
    write(folder, { 'deno.json': CONFIG, 'mod.ts': 'export * from "./a.ts";\nexport * from "./new/b.ts";\n', 'a.ts': TYPED });
    const options = { cwd: folder, env: { ...process.env, TMPDIR: folder } };
    const child = childProcess.spawn(LAUNCHER, ['check', '--watch', '--no-cache', '.'], options);
    const said = { text: '', all: '' };
    const tell = (/** @type {Buffer} */ part) => Object.assign(said, { text: said.text + part, all: said.all + part });
    for (const stream of [child.stdout, child.stderr]) stream.on('data', tell);
    try {
      /** @type {[change: () => void, wanted: RegExp][]} */
      const steps = [
        [() => {}, /there is no module '\.\/new\/b\.ts'[^]*\n2 files, 1 message, /],
        [() => fs.writeFileSync(path.join(folder, 'a.ts'), UNTYPED), /a\.ts changed\n[^]*\n2 files, 1 read again, 2 messages, /],
        [() => fs.writeFileSync(path.join(folder, 'note.txt'), ''), /^\n$/],
        [() => write(folder, { 'deno.json': CONFIG, 'new/b.ts': 'export const b: 1 = 1;\n' }), /\n3 files, [01] read again, 1 message, /],
        [() => fs.writeFileSync(path.join(folder, 'a.ts'), `\n${TYPED}`), /a\.ts changed\n3 files, 1 read again, 3 public modules, 0 messages, /],
        [() => fs.writeFileSync(path.join(folder, 'deno.json'), '{'), /cannot be read\n/],
        [() => fs.writeFileSync(path.join(folder, 'deno.json'), CONFIG), /3 files, 0 read again, 3 public modules, 0 messages, /],
      ];
      for (const [change, wanted] of steps) {
        if (said.text.includes('public')) said.text = '\n';
        change();
        await until(child, said, wanted);
      }
      const [last] = [said.all, await new Promise((resolve) => setTimeout(resolve, 300))];
      same(said.all, last, 'what is told while nothing changes');
      same(said.all.includes('note.txt'), false, 'whether a file that is no module is told');
    } finally {
      child.removeAllListeners('exit');
      child.kill();
    }
  })]];
}

/**
 * Tests of what is kept between runs.
 *
 * @returns {Case[]}
 */
function keeping() {
  /** @returns {string[]} */
  const entries = (/** @type {string} */ folder) => fs.readdirSync(folder, { withFileTypes: true }).flatMap((it) => {
    const at = path.join(folder, it.name);
    return it.isDirectory() ? entries(at) : it.name === 'tidied' ? [] : [at];
  });
  const all = fs.readdirSync(PACKAGES);
  const said = async (/** @type {string} */ name, /** @type {NodeJS.ProcessEnv} */ environment, commands = [['check', '--json', '--list-externals'], ['skeleton'], ['input']]) => {
    const parts = [];
    for (const words of commands) parts.push(JSON.stringify(await run([...words, '--reader', 'typescript', name], { environment })));
    return parts.join('\n');
  };
  return [
    ['answers with what is kept are those without it', () => withFolder(async (folder) => {
      const environment = { XDG_CACHE_HOME: folder };
      // The input is all that the program is handed, so what it answers is looked at of some alone.
      for (const [at, name] of all.entries()) {
        const commands = at % 10 ? [['input']] : undefined;
        const without = await said(name, {}, commands);
        same(await said(name, environment, commands), without, `${name} the first time`);
        same(await said(name, environment, commands), without, `${name} the second time`);
      }
      holds(entries(folder).length > 100, 'entries are written');
    })],
    ['damaged entries are dropped', () => withFolder(async (folder) => {
      const environment = { XDG_CACHE_HOME: folder };
      const without = await said('re-exports', {});
      await said('re-exports', environment);
      /** @type {((text: string) => string)[]} */
      const cut = [(text) => text.slice(0, -1), () => '', () => '{}', (text) => `${text.split('\n')[0]}\nnull`];
      const damages = [...cut, (/** @type {string} */ text) => text.replace('sources', 'source5')];
      for (const damage of damages) {
        for (const file of entries(folder)) fs.writeFileSync(file, damage(fs.readFileSync(file, 'utf8')));
        same(await said('re-exports', environment), without, `what comes of ${damage}`);
      }
      const whole = entries(folder);
      for (const file of whole) fs.writeFileSync(file, 'x');
      await run(['check', '--no-cache', 're-exports'], { environment });
      same(whole.map((file) => fs.readFileSync(file, 'utf8')).join(''), 'x'.repeat(whole.length), 'what --no-cache leaves');
    })],
    ...READERS.map((reader) => /** @type {Case} */ ([`whole answers of --reader ${reader} are told again while all that was read stays`, () => withFolder(async (folder) => {
      const [own, program, source, log] = ['own', 'program', 'source', 'log'].map((name) => path.join(folder, name));
      const logged = (/** @type {string | null | undefined} */ file) => `#!/bin/sh\necho ran >> ${log}\nexec "${file}" "$@"\n`;
      fs.writeFileSync(program, logged(process.env.FAST_CHECK), { mode: 0o755 });
      fs.writeFileSync(source, logged(SOURCE), { mode: 0o755 });
      const environment = { XDG_CACHE_HOME: path.join(folder, 'kept'), FAST_CHECK: program, FAST_CHECK_SOURCE: source };
      write(own, { 'deno.json': CONFIG, 'mod.ts': 'export * from "./a";\nimport "@/c";\n', 'a.tsx': UNTYPED, 'src/c.ts': UNTYPED, 'real/d.ts': TYPED });
      /** @type {[change: string, make: () => void][]} */
      const changes = [
        ['nothing', () => {}],
        ['a text', () => fs.writeFileSync(path.join(own, 'a.tsx'), `\n${UNTYPED}`)],
        ['a file that comes first', () => fs.writeFileSync(path.join(own, 'a.ts'), TYPED)],
        ['a configuration that was not there', () => fs.writeFileSync(path.join(own, 'tsconfig.json'), '{ "compilerOptions": { "paths": { "@/*": ["./src/*"] } } }')],
        ['an import', () => fs.writeFileSync(path.join(own, 'mod.ts'), 'export * from "./a";\nexport * from "@/c";\nexport * from "./link/d.ts";\n')],
        ['a link', () => fs.symlinkSync('real', path.join(own, 'link'))],
        ['a link that leads out', () => {
          fs.rmSync(path.join(own, 'link'));
          fs.symlinkSync('/etc', path.join(own, 'link'));
        }],
        ['a file that goes', () => fs.rmSync(path.join(own, 'src/c.ts'))],
        ['the entry point', () => fs.writeFileSync(path.join(own, 'deno.json'), CONFIG.replace('mod.ts', 'a.ts'))],
      ];
      for (const [change, make] of changes) {
        make();
        // Nothing is kept of a folder that may change while another process reads it.
        await new Promise((resolve) => setTimeout(resolve, 50));
        for (const words of [['check', '--reader', reader, 'own'], ['check', '--reader', reader, '--json', '--list-externals', 'own']]) {
          const wanted = JSON.stringify(await run([...words, '--no-cache'], { cwd: folder, environment: { FAST_CHECK_SOURCE: SOURCE || '' } }));
          same(JSON.stringify(await run(words, { cwd: folder, environment })), wanted, `${words.join(' ')} behind ${change}`);
          const count = readOr(log, '').length;
          same(JSON.stringify(await run(words, { cwd: folder, environment })), wanted, `${words.join(' ')} again behind ${change}`);
          // What cannot be read is read again by the program, and kept of the compiler.
          const isKept = reader === 'typescript' || JSON.parse(wanted).status < 2;
          if (isKept) same(readOr(log, '').length, count, `the runs of the program for ${words.join(' ')} again behind ${change}`);
        }
      }
    })])),
    ['a folder that cannot be written to', async () => {
      const without = await said('re-exports', {});
      for (const folder of ['/proc/nowhere', '/dev/null']) same(await said('re-exports', { XDG_CACHE_HOME: folder }), without, folder);
    }],
    ['the folder is that of the home where no other is named', () => withFolder(async (folder) => {
      await run(['check', '--reader', 'typescript', 'variables'], { environment: { HOME: folder, XDG_CACHE_HOME: 'relative' } });
      same(fs.readdirSync(path.join(folder, '.cache')).join(), 'fast-check-ts');
      same(fs.existsSync(path.join(PACKAGES, 'relative')), false, 'whether a relative path counts');
    })],
  ];
}

/** The examples of a page: the words behind `$ ./fast-check-ts`, and the lines that follow, up to an empty one or the next. */
function examplesOf(/** @type {string} */ text) {
  const found = [];
  let lines = null;
  for (const line of text.split('\n')) {
    const [, words] = /^ {4}\$ \.\/fast-check-ts (.*)$/.exec(line) || [];
    if (words !== undefined) found.push({ words: words.split(' '), lines: (lines = []) });
    else if (lines && line.startsWith('    ')) lines.push(`${line.slice(4)}\n`);
    else lines = null;
  }
  return found;
}

/**
 * Tests of the examples of the pages for users.
 *
 * @returns {Case[]}
 */
function examples() {
  const [guide, ...pages] = ['guide', 'cli', 'ci', 'limits'].map((name) => fs.readFileSync(path.join(DOCS, `${name}.md`), 'utf8'));
  /** @type {Case[]} */
  const all = examplesOf([guide, ...pages].join('\n')).map(({ words, lines }) => [`the example ${words.join(' ')}`, async () => {
    same((await run(words, { cwd: TOP })).out, untimed(lines.join('')));
  }]);
  return [...all, ['the example of a message', async () => {
    const { out } = await run(['check', 'examples/package'], { cwd: TOP });
    const [, message = guide] = /```\n(error\[[^]*?)```/.exec(guide) || [];
    holds(out.startsWith(message), `the page has not\n${out}`);
    holds(all.length > 1, 'the pages have examples');
  }]];
}

cases([...examples(), ...formats(), ...escapes(), ...targets(), ...leftOut(), ...known(), ...keeping(), ...going()]);
