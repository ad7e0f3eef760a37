#!/usr/bin/env node
'use strict';
// Compares what `fast-check-source` answers of packages with what `fast-check build` answers of the input that tools/typescript makes of them. Scopes may have
// other numbers.
//
//     tools/repo/compare_packages.js PROGRAM FAST_CHECK [--input] [--below | --files] FOLDER..
//
// With `--input` it compares the inputs themselves, member by member, but for what no rule can tell apart (`same_input.js`), and asks `fast-check build` nothing.
// Each folder is a package, or a workspace; with `--below` each package below the folders, as `sweep.js` finds them. With `--files` packages are made of the
// files below the folders that TypeScript's parser reads and that name no other module, as they are, each an entry point. One that TypeScript's compiler does not
// read is not compared. The last line counts the folders and the modules whose answers are equal. The status is 1 where any answer differs.

const fs = require('fs');
const os = require('os');
const path = require('path');
const { spawnSync } = require('child_process');

const { whole: ts } = require('../typescript/src/compiler/typescript.js');
const { packagesBelow } = require('../typescript/dev/sweep.js');
const { main } = require('../typescript/src/cli/main.js');
const { isMarked, restored } = require('../typescript/src/skeleton/restored.js');
const { compareInputs, difference, plain } = require('./same_input.js');

const show = (value) => (JSON.stringify(value) || 'nothing').slice(0, 160);

/** The answers by their specifiers, each with its own numbers of scopes. */
function bySpecifier(answers) {
  return Object.fromEntries(answers.map(([specifier, answer]) => [specifier, plain(answer)]));
}

/** The answers of a line of the program, with those of the entry points that are answered as another one. */
function writtenOut({ answers, same }) {
  const others = new Map(same);
  return answers.flatMap(([specifier, answer]) => [specifier, ...others.get(specifier) || []].map((it) => [it, answer]));
}

/** The modules of a request, as far as their answers need. */
function modulesOf({ modules }) {
  return modules.map(([specifier, { Esm: it }]) => ({ specifier, parts: it && { marks: { isMarked: isMarked(JSON.stringify(it.source)) } } }));
}

function answersOf(program, input) {
  const file = path.join(fs.mkdtempSync(path.join(os.tmpdir(), 'packages-')), 'input.json');
  fs.writeFileSync(file, input);
  const ran = spawnSync(program, ['build', file], { maxBuffer: 1 << 30, encoding: 'utf8' });
  fs.rmSync(path.dirname(file), { recursive: true });
  const request = JSON.parse(input);
  return ran.stdout.trim() ? restored(JSON.parse(ran.stdout), request, modulesOf(request)) : null;
}

/** The modules whose answers differ, each with the first place. */
function differences(answers, wanted) {
  const [mine, other] = [bySpecifier(answers), bySpecifier(wanted)];
  return Object.keys({ ...mine, ...other }).flatMap((name) => {
    const found = difference(mine[name], other[name]);
    return found ? [`${name}${found.at}: mine ${show(found.mine)} wanted ${show(found.wanted)}`] : [];
  });
}

/** What the front end makes of a folder: the input, or nothing and why. */
async function inputOf(fastCheck, folder) {
  const io = { cwd: process.cwd(), environment: { ...process.env, FAST_CHECK: fastCheck }, out: new Text(), err: new Text() };
  const status = await main(['input', folder, '--no-cache', '--reader', 'typescript'], io);
  return { status, input: io.out.text.trim(), said: io.err.text.split('\n')[0] };
}

/** A stream that keeps what is written. */
class Text {
  constructor() {
    this.text = '';
  }

  write(text) {
    this.text += text;
  }
}

/** How what the program says of a folder compares: a word, what there is to say of it, and how many modules are equal and how many differ. */
async function compare(fastCheck, folder, mine) {
  const { status, input, said: why } = await inputOf(fastCheck, folder);
  const said = (kind, ...lines) => ({ kind, lines, equal: 0, differ: 0 });
  if (!input) {
    const errors = mine.line ? JSON.parse(mine.line).errors : [];
    return errors.length || mine.status === 2 ? said('both refuse') : said('mine alone reads', why);
  }
  if (!mine.line) return said('no answer', `${mine.status} ${mine.signal} ${mine.stderr.slice(0, 200)}`);
  const { answers, same, input: asked, errors } = JSON.parse(mine.line);
  if (errors.length && status === 0) return said('mine alone refuses', show(errors));
  if (asked) {
    const { equal, differ, places } = compareInputs(asked, JSON.parse(input));
    return { ...said(places.length ? 'differs' : 'equal', ...places.map((it) => `${it.name}${it.at}: mine ${show(it.mine)} wanted ${show(it.wanted)}`)), equal, differ };
  }
  const wanted = answersOf(fastCheck, input);
  if (wanted === null) return said('the program answers nothing');
  const lines = differences(writtenOut({ answers, same }), wanted);
  return { ...said(lines.length ? 'differs' : 'equal', ...lines), equal: wanted.length - lines.length, differ: lines.length };
}

/** What the program says of each of some folders, behind other words. */
function told(program, words, folders) {
  const { status, signal, stdout, stderr } = spawnSync(program, [...words, ...folders], { maxBuffer: 1 << 30, encoding: 'utf8' });
  const lines = stdout.split('\n').filter(Boolean);
  if (folders.length === 1) return [{ line: lines[0], status, signal, stderr }];
  return lines.length === folders.length ? lines.map((line) => ({ line, status, signal, stderr })) : folders.flatMap((it) => told(program, words, [it]));
}

// How many packages of one file the program is asked of at once.
const FILES = 200;
// What names another module, or a file.
const NAMES_OTHERS = /\bfrom\s*["']|\bimport\s*["'(]|\brequire\s*\(|<reference\s|\bdeclare\s+module\s*["']/;

/** The files below a folder that TypeScript's parser reads and that name no other module. */
function filesBelow(folder) {
  return fs.readdirSync(folder, { withFileTypes: true }).flatMap((it) => {
    const file = path.join(folder, it.name);
    if (it.isDirectory()) return filesBelow(file);
    if (!/\.[cm]?tsx?$/.test(it.name)) return [];
    const text = fs.readFileSync(file, 'utf8');
    return text.includes('\ufffd') || NAMES_OTHERS.test(text) || ts.createSourceFile(file, text, ts.ScriptTarget.ESNext).parseDiagnostics.length ? [] : [file];
  });
}

/** Packages of one file each. */
function packagesOf(files, top) {
  return files.map((file, at) => {
    const [folder, name] = [path.join(top, String(at)), `m${/(\.d)?\.[cm]?tsx?$/.exec(file)[0]}`];
    fs.mkdirSync(folder);
    fs.copyFileSync(file, path.join(folder, name));
    fs.writeFileSync(path.join(folder, 'deno.json'), JSON.stringify({ name: '@files/file', version: '1.0.0', exports: `./${name}` }));
    return folder;
  });
}

async function* compared(program, fastCheck, before, words) {
  if (words[0] !== '--files') {
    const folders = words[0] === '--below' ? words.slice(1).flatMap((it) => packagesBelow(path.resolve(it))) : words;
    for (const folder of folders) yield { ...await compare(fastCheck, folder, told(program, before, [folder])[0]), folder };
    return;
  }
  const files = words.slice(1).flatMap((it) => filesBelow(path.resolve(it)));
  for (let at = 0; at < files.length; at += FILES) {
    const top = fs.mkdtempSync(path.join(os.tmpdir(), 'files-'));
    const folders = packagesOf(files.slice(at, at + FILES), top);
    for (const [place, mine] of told(program, before, folders).entries()) yield { ...await compare(fastCheck, folders[place], mine), folder: files[at + place] };
    fs.rmSync(top, { recursive: true });
  }
}

async function run([program, fastCheck, ...rest]) {
  const at = rest[0] === '--input' ? 1 : 0;
  const [counts, modules] = [{}, { equal: 0, differ: 0 }];
  for await (const { folder, kind, lines, equal, differ } of compared(program, fastCheck, rest.slice(0, at), rest.slice(at))) {
    counts[kind] = (counts[kind] || 0) + 1;
    modules.equal += equal;
    modules.differ += differ;
    for (const line of lines) console.log(`${folder}: ${kind}: ${line}`);
  }
  console.log(JSON.stringify({ folders: counts, modules }));
  return Object.keys(counts).every((it) => ['equal', 'both refuse', 'mine alone reads'].includes(it)) ? 0 : 1;
}

run(process.argv.slice(2)).then((status) => {
  process.exitCode = status;
});
