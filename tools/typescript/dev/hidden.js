'use strict';
// Edits what is hidden in the modules of real packages, and looks whether their skeletons stay byte for byte.
//
//   node tools/typescript/dev/hidden.js FOLDER ..
//
// Each FOLDER is a package, of which the sources are taken where it has both sources and declarations. Types that it leaves to inference are written first, in
// a copy, as the compiler finds them, so that there are skeletons. Of each kind of edit up to ten modules are edited, all at once, in a second copy: the bodies
// of functions with a written return type, private members, and values behind a written type, which become longer than a line. The skeletons have to stay byte for byte, and `diff` has to be
// silent; of a package that still has messages these have to stay, but for their places.
const fs = require('fs');
const os = require('os');
const path = require('path');
const { main } = require('../src/cli/main.js');
const { inputOf } = require('../src/program/input.js');
const { copied, entryOf, typed } = require('./judge.js');
const { hasModifier } = require('../src/compiler/modifiers.js');
const { whole: ts } = require('../src/compiler/typescript.js');

const MOST = 10;
const { SyntaxKind: K } = ts;

/** An edit of a text: what stands between two offsets is replaced. */
const edit = (/** @type {number} */ start, /** @type {number} */ end, /** @type {string} */ text) => ({ start, end, text });

/** @typedef {{ start: number, end: number, text: string }} Edit */

/**
 * For each kind the edits that a node gives.
 *
 * @type {Record<string, (node: ts.Node, file: ts.SourceFile) => Edit[]>}
 */
const KINDS = {
  body(node, file) {
    const isFunction = ts.isFunctionDeclaration(node) || ts.isMethodDeclaration(node) || ts.isGetAccessorDeclaration(node);
    if (!isFunction || !node.type || !node.body) return [];
    return [edit(node.body.getStart(file) + 1, node.body.getStart(file) + 1, '\n  const hiddenEdit = [1, "a"]; // an edit\n  void hiddenEdit;\n')];
  },
  'private member'(node, file) {
    if (!ts.isClassLike(node.parent) || !hasModifier(node, K.PrivateKeyword)) return [];
    if (ts.isPropertyDeclaration(node) && node.type) return [edit(node.type.getStart(file), node.type.end, 'Map<string, "an edit">')];
    if (!ts.isMethodDeclaration(node) || !node.body) return [];
    return [edit(node.parameters.pos, node.parameters.pos, node.parameters.length ? 'hiddenEdit: number, ' : 'hiddenEdit: number')];
  },
  'value behind a type'(node, file) {
    const value = (ts.isVariableDeclaration(node) || ts.isPropertyDeclaration(node) || ts.isParameter(node)) && node.type && node.initializer;
    return value ? [edit(value.getStart(file), value.end, `(([${'"an edit", '.repeat(9)}] as unknown) as never)`)] : [];
  },
};

/** The edits of a kind in a file, from the last to the first, none within another. */
function editsOf(/** @type {string} */ kind, /** @type {ts.SourceFile} */ file) {
  /** @type {Edit[]} */
  const found = [];
  const walk = (/** @type {ts.Node} */ node) => {
    if (hasModifier(node, K.DeclareKeyword)) return;
    const own = KINDS[kind](node, file);
    found.push(...own);
    if (!own.length) ts.forEachChild(node, walk);
  };
  if (!file.isDeclarationFile) ts.forEachChild(file, walk);
  return found.reverse();
}

/** Runs the command line in a folder. */
async function run(/** @type {string} */ folder, /** @type {string[]} */ words) {
  const out = { text: '', write(/** @type {string} */ part) { this.text += part; } };
  const status = await main(words, { cwd: folder, environment: process.env, out, err: { write() {} } });
  return { status, text: out.text };
}

/** What the commands say of a folder: its skeletons, or its messages without their places. */
async function said(/** @type {string} */ folder, /** @type {string[]} */ words) {
  const shown = await run(folder, ['skeleton', '.', ...words]);
  if (shown.status === 0) return shown;
  const { status, text } = await run(folder, ['check', '--json', '.', ...words]);
  const lines = text.split('\n').filter(Boolean).map((line) => JSON.parse(line));
  return { status, text: lines.map((each) => `${each.file} ${each.code} ${each.message}`).join('\n') };
}

/** Edits up to ten of the modules that the package leads to, each in a copy of it, and answers how many were. */
function editAll(/** @type {string} */ kind, /** @type {string} */ folder, /** @type {string[]} */ names) {
  let edited = 0;
  for (const name of names) {
    const file = path.join(folder, name);
    const text = fs.readFileSync(file, 'utf8');
    const edits = editsOf(kind, ts.createSourceFile(file, text, ts.ScriptTarget.ESNext, true));
    if (!edits.length) continue;
    fs.writeFileSync(file, edits.reduce((all, { start, end, text: now }) => all.slice(0, start) + now + all.slice(end), text));
    if (++edited === MOST) break;
  }
  return edited;
}

/** @typedef {{ folder: string, words: string[], names: string[], before: { status: number, text: string } }} Edited */

/** Edits a copy of the package in one way, and reports whether all stays. */
async function judgeKind(/** @type {string} */ kind, /** @type {Edited} */ { folder, words, names, before }, /** @type {string} */ copy) {
  fs.cpSync(folder, copy, { recursive: true });
  const edited = editAll(kind, copy, names);
  if (!edited) return { edited, line: `${kind} in no module`, isSame: true };
  let isSame = (await said(copy, words)).text === before.text;
  if (isSame && before.status === 0) {
    const { status, text } = await run(copy, ['diff', folder, '.', ...words]);
    isSame = status === 0 && text.startsWith('patch: ');
  }
  return { edited, line: `${kind} in ${edited} modules ${isSame ? 'stays' : 'DIFFERS'}`, isSame };
}

async function judge(/** @type {string} */ dir, /** @type {string} */ work) {
  const entry = entryOf(dir);
  if (!entry) return { line: `${dir}: no entry point`, failed: 0, counts: {} };
  const { folder } = copied(dir, entry, work);
  const exports = { '.': `./${entry.replace(/^\.\//, '')}` };
  const { written } = await typed(folder, exports, work);
  const words = ['--exports', JSON.stringify(exports)];
  const before = await said(folder, words);
  const names = inputOf(folder, { exports }).info.modules.map((module) => path.relative(folder, module.path));
  const told = [];
  /** @type {Record<string, number>} */
  const counts = {};
  let failed = 0;
  for (const kind of Object.keys(KINDS)) {
    const { edited, line, isSame } = await judgeKind(kind, { folder, words, names, before }, path.join(work, kind));
    counts[kind] = isSame ? edited : 0;
    if (!isSame) failed++;
    told.push(line);
  }
  const what = `${before.status === 0 ? 'skeletons' : 'messages'}, ${written} types written`;
  return { line: `${dir} (${what}): ${told.join(', ')}`, failed, counts };
}

async function judgeAll(/** @type {string[]} */ folders) {
  /** @type {Record<string, number>} */
  const sums = {};
  let failed = 0;
  for (const folder of folders) {
    const work = fs.mkdtempSync(path.join(os.tmpdir(), 'fast-check-hidden-'));
    try {
      const { line, failed: more, counts } = await judge(path.resolve(folder), work);
      console.log(line);
      failed += more;
      for (const [kind, count] of Object.entries(counts)) sums[kind] = (sums[kind] || 0) + count;
    } catch (error) {
      console.log(`${folder}: cannot be read: ${/** @type {Error} */ (error).message}`);
    } finally {
      fs.rmSync(work, { recursive: true, force: true });
    }
  }
  console.log(Object.entries(sums).map(([kind, count]) => `${kind}: ${count} modules stay`).join(', '));
  process.exitCode = failed ? 1 : 0;
}

judgeAll(process.argv.slice(2));
