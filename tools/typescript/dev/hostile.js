#!/usr/bin/env node
'use strict';
// Feeds `fast-check-source` with broken texts: each module of the folders cut at each place, and with each token left out, or there twice.
//
//   node hostile.js PROGRAM FOLDER ..
//
// A module longer than some thousand characters is cut at as many places, and loses as many tokens. Each text is the only module of a package. The program has to
// end by itself with status 0 to 2, and to refuse a text where TypeScript's parser finds an error, and no other. Each kind of deviation is told with its shortest
// text. Then it gets texts of 100 KB that are one piece again and again, and the three that take longest are told. The status is 1 where the program does not end by
// itself.

const fs = require('fs');
const os = require('os');
const path = require('path');
const { spawnSync } = require('child_process');
const { textOf, whole: ts } = require('../src/compiler/typescript.js');
const { parse, toTree } = require('../src/tree/index.js');

// How many texts of each kind are made of a module at most, and how many packages one run of the program gets.
const [MOST, BATCH] = [4000, 500];
// What may be nested, chained or listed without an end.
const PIECES = ['(', '[', '{', '({', '([', '{a:', '({a:', '[{', 'a.', 'a?.', 'a!', 'a[', 'f(', 'a?', 'a?b:', '!', '-', '...', '()=>', 'a=>', '(a)=>', 'a=', 'a+', 'a**', 'a,', 'a;', 'a;\n',
  '`${', '<', '<T>', '<a>', 'A<', 'a<b>', 'x:', 'new ', 'await ', 'typeof ', 'a as ', 'import(', '@a ', '@(', 'if(a)', 'else ', 'do ', 'for(;;)', 'while(a)', 'try{', 'switch(a){case 1:',
  'function f(){', 'function f(a=', 'class A{', 'class A extends ', 'x=class{a=', 'static{', 'get a(){', 'namespace N{', 'interface A{a:', 'enum E{', 'type A=[', 'type A=(', 'type A={a:', 'type A=',
  'let [', 'let {a:', 'let a=', 'let a:A<', 'let a:()=>', 'let a:B|', 'let a:B extends C?', 'let a:keyof ', 'let a:`${', 'export default ', 'declare ', 'import "a";', 'import "a";\n',
  'export * from "a";\n', 'export {a};', 'export const a=1;', '/*', '/*x*/', '//\n', '"', '/', '#', '}', ')', ']'];
const LENGTH = 100000;
const REFUSED = new Set(['syntax-error', 'nested-too-deep']);

/** @typedef {{ name: string, text: string }} Text */
/** @typedef {{ errors: { code: string, line: number, column: number, message: string }[] } | { failed: string }} Answer */

function sourcesBelow(/** @type {string} */ dir, /** @type {string[]} */ found = []) {
  for (const it of fs.readdirSync(dir, { withFileTypes: true })) {
    const file = path.join(dir, it.name);
    if (it.isDirectory()) sourcesBelow(file, found);
    else if (it.isFile() && /\.[cm]?tsx?$/.test(it.name)) found.push(file);
  }
  return found;
}

/** The ranges of the tokens of a text. */
function tokensOf(/** @type {string} */ name, /** @type {string} */ text) {
  const file = ts.createSourceFile(name, text, ts.ScriptTarget.ESNext, true);
  /** @type {[number, number][]} */
  const found = [];
  const walk = (/** @type {ts.Node} */ node) => {
    const parts = node.getChildren(file).filter((it) => it.kind < ts.SyntaxKind.FirstJSDocNode || it.kind > ts.SyntaxKind.LastJSDocNode);
    if (!parts.length && node.end > node.getStart(file)) found.push([node.getStart(file), node.end]);
    parts.forEach(walk);
  };
  walk(file);
  return found;
}

/**
 * At most so many of a list, evenly.
 *
 * @template T
 * @param {T[]} list
 */
const some = (list) => list.filter((_, at) => list.length <= MOST || at % Math.ceil(list.length / MOST) === 0);

/** What is made of a module: texts, none of them with half a character. */
function brokenTexts(/** @type {string} */ text, /** @type {string} */ name) {
  const tokens = some(tokensOf(name, text));
  const made = new Set([
    ...some(Array.from({ length: text.length }, (_, at) => at)).map((at) => text.slice(0, at)),
    ...tokens.map(([start, end]) => text.slice(0, start) + text.slice(end)),
    ...tokens.map(([start, end]) => `${text.slice(0, end)} ${text.slice(start)}`),
  ]);
  return [...made].filter((it) => !/[\ud800-\udbff]$/.test(it)).map((it) => ({ name, text: it }));
}

/** What the program answers of packages: of each alone where it does not answer all. */
function run(/** @type {string} */ program, /** @type {string[]} */ folders) {
  const { status, signal, stdout, stderr } = spawnSync(program, folders, { encoding: 'utf8', maxBuffer: 1 << 30 });
  const lines = stdout.split('\n').filter(Boolean);
  if (status !== null && status <= 2 && lines.length === folders.length) return lines.map((it) => /** @type {Answer} */ (JSON.parse(it)));
  if (folders.length === 1) return [{ failed: `${signal || status}: ${stderr.slice(0, 200)}` }];
  /** @type {Answer[]} */
  const all = folders.flatMap((it) => run(program, [it]));
  return all;
}

/** The answers of texts, each as the only module of a package. */
function answersOf(/** @type {string} */ program, /** @type {Text[]} */ texts, /** @type {string} */ top) {
  const folders = texts.map(({ name, text }, at) => {
    const folder = path.join(top, String(at));
    fs.mkdirSync(folder, { recursive: true });
    fs.writeFileSync(path.join(folder, 'deno.json'), JSON.stringify({ name: '@test/hostile', version: '1.0.0', exports: `./${name}` }));
    fs.writeFileSync(path.join(folder, name), text);
    return folder;
  });
  const answers = run(program, folders);
  fs.rmSync(top, { recursive: true });
  return answers;
}

/** A token as others of its kind: names, texts and numbers alike. */
function plainly(/** @type {ts.SyntaxKind} */ kind, /** @type {string} */ text) {
  const { SyntaxKind: K } = ts;
  if (kind === K.Identifier || kind === K.PrivateIdentifier) return 'name';
  return kind >= K.FirstLiteralToken && kind <= K.LastTemplateToken ? ts.SyntaxKind[kind] : text || 'end';
}

/** The token before an offset of a text, and the one there. */
function around(/** @type {Text} */ { name, text }, /** @type {number} */ offset) {
  const scanner = ts.createScanner(ts.ScriptTarget.ESNext, true, /x$/.test(name) ? ts.LanguageVariant.JSX : ts.LanguageVariant.Standard, text);
  for (let before = 'begin'; ;) {
    const kind = scanner.scan();
    const found = plainly(kind, scanner.getTokenText());
    if (kind === ts.SyntaxKind.EndOfFileToken || scanner.getTextPos() > offset) return `${before} | ${found}`;
    before = found;
  }
}

/** What TypeScript's parser finds in a text, or the tool when it makes a tree of it. */
function errorOf(/** @type {Text} */ text) {
  const file = parse(text.name, text.text);
  const [own] = file.parseDiagnostics || [];
  if (own) return `${textOf(own.messageText).replace(/'[^']*'/g, "'..'")} at ${around(text, own.start)}`;
  const [other] = toTree(file, { short: true }).errors;
  return other && `the tool: ${other.message}`;
}

/** How the answer of a text deviates from what TypeScript's parser says, or null. */
function deviation(/** @type {Text} */ text, /** @type {Answer} */ answer) {
  if ('failed' in answer) return `FAILED ${answer.failed}`;
  const mine = answer.errors.find((it) => REFUSED.has(it.code));
  const wanted = errorOf(text);
  if (Boolean(mine) === Boolean(wanted)) return null;
  if (!mine) return `read: ${wanted}`;
  const start = text.text.split('\n').slice(0, mine.line - 1).reduce((all, it) => all + it.length + 1, 0);
  return `refused: ${mine.message} at ${around(text, start + mine.column - 1)}`;
}

/** The seconds that texts take of one piece again and again. */
function longest(/** @type {string} */ program, /** @type {string} */ top) {
  const took = PIECES.map((piece) => {
    const text = piece.repeat(LENGTH / piece.length);
    const begun = process.hrtime.bigint();
    const [answer] = answersOf(program, [{ name: 'mod.ts', text }], top);
    return { piece, seconds: Number(process.hrtime.bigint() - begun) / 1e9, failed: 'failed' in answer ? answer.failed : undefined };
  });
  return took.sort((one, other) => other.seconds - one.seconds);
}

function main(/** @type {string} */ program, /** @type {string[]} */ folders) {
  const top = path.join(os.tmpdir(), `hostile-${process.pid}`);
  const texts = folders.flatMap((it) => sourcesBelow(it)).flatMap((file) => {
    const [ending] = /(\.d)?\.[cm]?tsx?$/.exec(file) || [''];
    return brokenTexts(fs.readFileSync(file, 'utf8').replace(/^\ufeff/, ''), `mod${ending}`);
  });
  /** @type {Map<string, { count: number, text: string, name: string, at: string }>} */
  const found = new Map();
  for (let at = 0; at < texts.length; at += BATCH) {
    const part = texts.slice(at, at + BATCH);
    answersOf(program, part, top).forEach((answer, place) => {
      const kind = deviation(part[place], answer);
      if (!kind) return;
      const known = found.get(kind) || { count: 0, text: '', name: '', at: '' };
      const isShorter = !known.count || part[place].text.length < known.text.length;
      const [error] = 'errors' in answer ? answer.errors : [];
      const made = isShorter ? { ...part[place], at: error ? `${error.line}:${error.column}` : '' } : known;
      found.set(kind, { ...made, count: known.count + 1 });
    });
  }
  for (const [kind, { count, name, at, text }] of found) console.log(`${kind}: ${count}, shortest (${name} ${at}):\n${JSON.stringify(text)}`);
  console.log(JSON.stringify({ texts: texts.length, kinds: found.size, deviate: [...found.values()].reduce((all, it) => all + it.count, 0) }));
  const long = longest(program, top);
  console.log(JSON.stringify({ long: long.length, longest: long.slice(0, 3) }));
  const failed = long.filter((it) => it.failed);
  for (const it of failed) console.log(`FAILED ${JSON.stringify(it)}`);
  return failed.length || [...found.keys()].some((it) => it.startsWith('FAILED')) ? 1 : 0;
}

process.exitCode = main(process.argv[2], process.argv.slice(3));
