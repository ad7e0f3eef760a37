'use strict';
// The commands and options of the command line, and the texts of `--help`.
const { CODES } = require('../messages/codes.js');
const { NAME, isClone } = require('./installed.js');

/** @typedef {import('./types').Option} Option */

/**
 * The commands: how their words are shown, the least and the most of them, what they do, what more `COMMAND --help` says, and the words of an example.
 *
 * @type {Record<string, { words: string, least: number, most: number, text: string, more: string[], example: string }>}
 */
const COMMANDS = {
  check: {
    words: '[DIR ..]', least: 0, most: Infinity, text: 'messages for the packages in the folders DIR',
    more: ['A word may be a file too, which is checked as an entry point of the package that it lies in.',
      'A comment `// fast-check-ignore CODE` above a declaration allows messages of that code in it.'],
    example: 'check --format sarif packages/a packages/b > slow.sarif',
  },
  fix: {
    words: '[DIR]', least: 0, most: 1, text: "writes the types that messages ask for, as TypeScript's compiler infers them",
    more: ['It runs until it can write no further type, and then reports the messages that are left.'], example: 'fix --dry-run .',
  },
  skeleton: {
    words: '[DIR [OUT]]', least: 0, most: 2, text: 'the skeletons of its public modules as TypeScript, in the folder OUT or on standard output',
    more: ['Messages go to standard error.'], example: 'skeleton . out',
  },
  input: {
    words: '[DIR]', least: 0, most: 1, text: 'the input of `fast-check build`, as JSON',
    more: [], example: 'input . > input.json',
  },
  diff: {
    words: 'OLD NEW', least: 2, most: 2,
    text: 'which public names are gone, new or declared otherwise in NEW, and which part of the version number has to change',
    more: ['OLD or NEW may be a revision of the repository that the other lies in.'], example: 'diff HEAD~1 .',
  },
  report: {
    words: 'DIR OUT.html', least: 2, most: 2, text: 'a page to look at: source beside skeleton, with the messages',
    more: [], example: 'report . page.html',
  },
  explain: {
    words: 'CODE', least: 1, most: 1, text: 'what a code of messages means, and what to write', more: [], example: 'explain missing-explicit-type',
  },
  lsp: {
    words: '', least: 0, most: 0, text: 'a language server over standard input and output: diagnostics as you type, and quick fixes that write the missing types',
    more: [], example: 'lsp',
  },
  serve: {
    words: '', least: 0, most: 0, text: 'checks one folder after another: a line of JSON in, and one out for it',
    more: ['A line in is {"dir": FOLDER}, with "want": "skeletons" or "declarations" where these are wanted too. The line out has "status", "messages", "said"',
      'and "modules". Packages may be of strangers: no code in their folders is run, no comment allows messages, and nothing is kept of them.'],
    example: 'serve < folders.jsonl',
  },
};

// Commands that read no folder of their own, and take no options.
const PLAIN = ['explain', 'lsp', 'serve'];
const ALL = Object.keys(COMMANDS).filter((name) => !PLAIN.includes(name));
const READING = ['check', 'fix', 'skeleton', 'diff', 'report'];

/**
 * The options: the word and others for it (`also`), how its value is shown where it takes one, the name in what `parse` answers (of those that may stand more than
 * once a list), the commands that take it, and what it does.
 *
 * @type {import('./types').Option[]}
 */
const OPTIONS = [
  { word: '--name', value: 'NAME', key: 'name', commands: ALL, text: 'the name of the package, where no deno.json, jsr.json or package.json says it' },
  { word: '--version', value: 'VERSION', key: 'version', commands: ALL, text: 'its version; by itself, the version of this tool' },
  {
    word: '--exports', value: 'EXPORTS', key: 'exports', commands: ALL,
    text: 'its entry points: a path, or a map as JSON, as {".": "./mod.ts", "./cli": "./cli.ts"}',
  },
  { word: '--format', value: 'FORMAT', key: 'format', commands: ['check'], text: 'check: text, json, github, sarif, junit or badge' },
  { word: '--json', key: 'json', commands: ['check', 'diff'], text: 'check and diff: one object a line, as --format json' },
  { word: '--max-warnings', value: 'N', key: 'maxWarnings', commands: ['check'], text: 'check: status 1 where there are more warnings than N' },
  {
    word: '--allow', value: 'CODE', key: 'allow', isList: true, commands: ['check'],
    text: 'check: leave messages of this code out, and count them; may stand more than once',
  },
  { word: '--no-ignore', key: 'noIgnore', commands: ['check'], text: 'check: pass over comments that allow messages' },
  {
    word: '--baseline', value: 'FILE', key: 'baseline', commands: ['check'],
    text: 'check: leave out what is in FILE, which an earlier `check --json` has written',
  },
  { word: '--rules', value: 'RULES', key: 'rules', commands: ['check'], text: 'check: deno reports what deno_graph 0.111.1 does, for which a single return names no return type' },
  {
    word: '--reader', value: 'READER', key: 'reader', commands: ['check', 'skeleton', 'diff', 'input'],
    text: "check, skeleton, diff and input: source reads TypeScript by a program that is proved, which is usual where nothing is kept, and typescript by TypeScript's compiler",
  },
  { word: '--only', key: 'only', commands: ['check'], text: 'check: take the words for files, and report the messages of these alone, by the entry points of their packages' },
  { word: '--fix', key: 'fix', commands: ['check'], text: "check: write the types that TypeScript's compiler infers first, as the command fix does" },
  { word: '--watch', key: 'watch', commands: ['check'], text: 'check: check again whenever a file changes' },
  { word: '--list-externals', key: 'externals', commands: ['check'], text: 'check: say which imports lead out of the folder, and are not followed' },
  {
    word: '--verify', key: 'verify', commands: ['check'],
    text: "check: have TypeScript's compiler check the skeletons, and report errors and types that the source has not",
  },
  { word: '--no-cache', key: 'noCache', commands: ALL, text: 'keep nothing between runs, and use nothing that was kept' },
  { word: '--dry-run', also: ['--dry'], key: 'dry', commands: ['fix'], text: 'fix: show the changes, and write nothing' },
  { word: '--types', key: 'types', commands: ['report'], text: "report: have TypeScript's compiler infer the missing types, and show what fix would write" },
  { word: '--markdown', key: 'markdown', commands: ['diff'], text: 'diff: a text for a pull request' },
  { word: '--dts', key: 'dts', commands: ['skeleton'], text: 'skeleton: declaration files (.d.ts) in place of skeletons' },
  { word: '--with-dts', key: 'withDts', commands: ['skeleton'], text: 'skeleton: declaration files beside skeletons' },
  // An installed tool has its proved program and no other.
  { word: '--unproved', key: 'unproved', commands: READING, isHidden: !isClone, text: 'run the program without any proof' },
  { word: '--no-own-compiler', key: 'noOwnCompiler', commands: ALL, text: "pass over the compiler in the folder's node_modules, whose code would be run" },
  { word: '--quiet', also: ['-q'], key: 'quiet', commands: ['check'], text: 'check: report errors alone: no warnings, no notes, no closing lines' },
  { word: '--no-color', key: 'plain', commands: ALL, text: 'no colours on a terminal' },
  { word: '--help', also: ['-h'], key: 'help', commands: ALL, text: 'these lines; behind a command, its options' },
];

const WIDTH = 23;
const entry = (/** @type {string} */ words, /** @type {string} */ text) => `  ${words.padEnd(WIDTH - 1)} ${text}`;
/** @param {import('./types').Option} option */
const shown = ({ word, also = [], value }) => [...also.filter((it) => /^-[a-z]$/.test(it)), word].join(', ') + (value ? ` ${value}` : '');

const ENDS = `It ends with 0 where there is nothing to report but warnings, 1 where there are errors or differences, 2 where something cannot be read,
3 where memory ran out, 5 where the program is not there, and 70 after an internal error of this tool.
`;

const USAGE = `usage: ${NAME} COMMAND ..

${Object.keys(COMMANDS).map((name) => entry(`${name} ${COMMANDS[name].words}`.trimEnd(), COMMANDS[name].text)).join('\n')}

options:
${OPTIONS.filter((it) => !it.isHidden).map((it) => entry(shown(it), it.text)).join('\n')}

${ENDS}
TypeScript's compiler is that of the folder's node_modules, else the one that the variable TYPESCRIPT names (a folder), else the system's.
The variable FAST_CHECK names a program to run in place of ${isClone ? './fast-check, which is proved and built at the first run' : 'the proved one'}.
\`${NAME} COMMAND --help\` says more of a command.
`;

/** The text of an option for one command, without the name of the command before it. */
function textFor(/** @type {Option} */ { text, commands }) {
  return commands === ALL || commands === READING ? text : text.replace(/^[a-z]+(?:, [a-z]+)*(?: and [a-z]+)?: /, '');
}

/** Words in lines that a terminal holds. */
function wrapped(/** @type {string[]} */ words) {
  const lines = [''];
  for (const word of words) {
    if (lines[lines.length - 1].length + word.length > 98) lines.push('');
    lines[lines.length - 1] += `${lines[lines.length - 1] ? ' ' : '  '}${word}`;
  }
  return lines.join('\n');
}

/** The codes that may be allowed, as a paragraph of the help of `check`. */
function codesText() {
  const codes = Object.keys(CODES).filter((code) => CODES[code] !== 'refused').sort();
  return `codes that may be allowed:\n${wrapped([...codes, 'typescript-N'])}\n\n`;
}

/** What `COMMAND --help` says. */
function helpOf(/** @type {string} */ name) {
  const { words, text, more, example } = COMMANDS[name];
  const taken = OPTIONS.filter(({ commands, isHidden }) => commands.includes(name) && !isHidden).map((it) => entry(shown(it), textFor(it)));
  const about = [`${text[0].toUpperCase()}${text.slice(1)}.`, ...more].join('\n');
  const codes = name === 'check' ? codesText() : '';
  return `usage: ${NAME} ${name} [OPTION ..] ${words}\n\n${about}\n\noptions:\n${taken.join('\n')}\n\n${codes}example:\n  ${NAME} ${example}\n\n${ENDS}`;
}

module.exports = { COMMANDS, OPTIONS, USAGE, helpOf };
