'use strict';
// What the commands say of the packages of `packages`, and what of it is stored. Run by itself it stores what comes: `node stored.js [NAME ..]`.
const fs = require('fs');
const path = require('path');
const { run, PACKAGES, TESTS, readOr } = require('./helpers.js');
const { whole: ts, isFrom } = require('../../src/compiler/typescript.js');

const EXPECTED = path.join(TESTS, 'expected');
const NAMES = fs.readdirSync(PACKAGES).sort();
// Packages with forms that TypeScript 4.8 does not read. What it says instead is stored, and what a compiler says that reads them all, which
// is compared by those alone (newest.sh fetches one).
const NEWER = [
  'using', 'quoted-names', 'newer-forms', 'newer-classes', 'newer-modules', 'apart-accessor', 'apart-enum-constant', 'apart-const-enum', 'instead-const-enum', 'dts-newer',
];
const READS_ALL = isFrom(5, 9);
const READS_NONE = !isFrom(4, 9);

// What an older compiler says besides of the first syntax error.
const NEWER_COMPILER = /  info: TypeScript \S+ reads this; a newer one .*\n\n?/;

// The closing lines, which a test of their own looks at.
const CLOSING = /^These are slow types(?:.*\n)+?\n/m;

// The version of this tool, which changes.
const OWN_VERSION = /("name": "fast-check-ts",\s*"version": ")[^"]*/;

// What is run of some packages besides.
/** @type {Record<string, string[][]>} */
const MORE = {
  fixed: [['fix', '--dry']],
  'fixed-workspace': [['fix', '--dry']],
  baseline: [['check', '--baseline', 'known.jsonl']],
  'workspace-large': [['check', '--verify']],
  'javascript-entry': [['check', '--max-warnings', '0']],
  'single-returns': [['check', '--rules', 'deno']],
  ...Object.fromEntries(['generic-arrows', 'var-in-block', 'self-import', 'expect-error', 'private-static', 'verified-members'].map((name) => [name, [['check', '--verify']]])),
  ...Object.fromEntries(['typeof-values', 'expando-keywords', 'namespace-blocks', 'widened-literals'].map((name) => [name, [['check', '--verify'], ['skeleton', '--dts']]])),
  ...Object.fromEntries(['accessor-pairs', 'arrow-default', 'fixed-this'].map((name) => [name, [['fix', '--dry']]])),
  'shadowed-global': [['skeleton', '--dts']],
  'several-messages': [['check', '--allow', 'missing-explicit-type'], ...['github', 'sarif', 'junit'].map((format) => ['check', '--format', format])],
};

/** What the commands say of a package by the compiler's reader, with which the other one is compared; of one where the rules part from TypeScript, and of
 * what can be written instead, what the compiler finds in the skeletons too. */
async function said(/** @type {string} */ name) {
  const parts = [];
  const commands = [['check'], ['skeleton'], ...(/^(apart|instead)-/.test(name) ? [['check', '--verify']] : []), ...(MORE[name] || []),
    ...(/^dts/.test(name) ? [['skeleton', '--dts']] : [])];
  for (const words of commands) {
    const byCompiler = ['check', 'skeleton'].includes(words[0]) ? ['--reader', 'typescript'] : [];
    const { status, out, err: told } = await run([...words, ...byCompiler, '.'], { cwd: path.join(PACKAGES, name) });
    const err = told.replace(NEWER_COMPILER, '').replace(ts.version, 'VERSION');
    parts.push(`$ ${words.join(' ')}: status ${status}\n${withoutClosing(out).replace(OWN_VERSION, '$1VERSION')}${err && words[0] !== 'skeleton' ? `$ standard error\n${err}` : ''}`);
  }
  return parts.join('\n');
}

function expectedOf(/** @type {string} */ name, readsAll = READS_ALL) {
  return path.join(EXPECTED, ...(readsAll && NEWER.includes(name) ? ['newer'] : []), `${name}.txt`);
}

/** What is said without the closing lines. */
function withoutClosing(/** @type {string} */ text) {
  return text.replace(CLOSING, '');
}

/** Whether what is stored of a package is what the compiler at hand says. */
function isCompared(/** @type {string} */ name) {
  return READS_ALL || READS_NONE || !NEWER.includes(name);
}

/** Stores what comes as what is expected, and names the files that it changed. */
async function store(/** @type {string[]} */ names) {
  let changed = 0;
  for (const name of names.filter(isCompared)) {
    const file = expectedOf(name);
    const [before, now] = [fs.existsSync(file) ? fs.readFileSync(file, 'utf8') : null, await said(name)];
    if (before === now) continue;
    changed++;
    fs.mkdirSync(path.dirname(file), { recursive: true });
    fs.writeFileSync(file, now);
    console.log(`${before === null ? 'new' : 'changed'} ${path.relative(process.cwd(), file)}`);
  }
  console.log(`${changed} of ${names.length} packages changed`);
}


if (require.main === module) store(NAMES.filter((name) => process.argv.length < 3 || process.argv.includes(name)));

module.exports = { NAMES, NEWER, READS_ALL, READS_NONE, isCompared, expectedOf, said, withoutClosing };
