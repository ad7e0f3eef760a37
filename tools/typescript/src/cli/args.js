'use strict';
// The words of the command line.
const { CODES, isCode, mayBeAllowed } = require('../messages/codes.js');
const { EITHER } = require('../program/program.js');
const { COMMANDS, OPTIONS } = require('./options.js');

/** @typedef {import('./types').Options} Options */

/** @type {Map<string, import('./types').Option>} */
const BY_WORD = new Map(OPTIONS.flatMap((it) => [it.word, ...(it.also || [])].map((word) => /** @type {const} */ ([word, it]))));
const FORMATS = ['text', 'json', 'github', 'sarif', 'junit', 'badge'];
const RULES = ['deno'];
const READERS = ['typescript', 'source'];
// Commands that read by the program that reads TypeScript, where it is there and nothing else is asked for.
const BY_EITHER = ['check', 'skeleton', 'diff', 'input'];
// Options that need what this tool reads by itself.
const BY_TYPESCRIPT = ['name', 'version', 'exports', 'rules', 'verify', 'dts', 'withDts', 'watch'];
// Those that are one document, which a run that goes on has no end of.
const DOCUMENTS = ['sarif', 'junit', 'badge'];

class UsageError extends Error {}

/** How many letters have to change, come or go between two words. */
function distance(/** @type {string} */ one, /** @type {string} */ other) {
  let row = Array.from({ length: other.length + 1 }, (_, at) => at);
  for (const [at, letter] of [...one].entries()) {
    const next = [at + 1];
    for (const [place, each] of [...other].entries()) next.push(Math.min(next[place] + 1, row[place + 1] + 1, row[place] + (letter === each ? 0 : 1)));
    row = next;
  }
  return row[other.length];
}

/** What a wrong word may have been meant for, as the end of a sentence; nothing where no known word is near. */
function meant(/** @type {string} */ word, /** @type {string[]} */ known) {
  const [nearest] = known.map((it) => ({ it, count: distance(word, it) })).filter(({ count }) => count <= 2).sort((a, b) => a.count - b.count);
  return nearest ? `; did you mean ${nearest.it}?` : '';
}

/** Entry points as the option says them: a path, or a map of export names to paths. */
function exportsOf(/** @type {string} */ text) {
  if (!text.trimStart().startsWith('{')) return text;
  try {
    return JSON.parse(text);
  } catch (error) {
    throw new UsageError(`--exports is no JSON: ${/** @type {Error} */ (error).message}`);
  }
}

function countOf(/** @type {string} */ text) {
  if (!/^\d{1,9}$/.test(text)) throw new UsageError(`--max-warnings wants a number, and ${text} is none`);
  return Number(text);
}

function formatOf(/** @type {string} */ name) {
  if (!FORMATS.includes(name)) throw new UsageError(`there is no format ${name}: ${FORMATS.join(', ')}${meant(name, FORMATS)}`);
  return name;
}

function rulesOf(/** @type {string} */ name) {
  if (!RULES.includes(name)) throw new UsageError(`there are no rules ${name}: ${RULES.join(', ')}`);
  return name;
}

/** A code that may be allowed: of what keeps a folder from being read, there is nothing to go on with. */
function allowed(/** @type {string} */ code) {
  if (!isCode(code)) throw new UsageError(`there is no code ${code}: ${Object.keys(CODES).join(', ')}${meant(code, Object.keys(CODES))}`);
  if (!mayBeAllowed(code)) throw new UsageError(`${code} cannot be allowed, since the package is not read then`);
  return code;
}

function readerOf(/** @type {string} */ name) {
  if (!READERS.includes(name)) throw new UsageError(`there is no reader ${name}: ${READERS.join(', ')}${meant(name, READERS)}`);
  return name;
}

// How the values of options are read, those of a list each.
/** @type {Record<string, (text: string) => unknown>} */
const READ = { exports: exportsOf, maxWarnings: countOf, format: formatOf, rules: rulesOf, reader: readerOf, allow: allowed };

/**
 * Puts the value of an option among the others.
 *
 * @param {Record<string, any>} options
 * @param {import('./types').Option} option
 * @param {unknown} value
 */
function put(options, { key, isList }, value) {
  if (isList) options[key] = [...(options[key] || []), value];
  else options[key] = value;
}

/** The words, parted into options and others. */
function parted(/** @type {string[]} */ words) {
  /** @type {import('./types').Options} */
  const options = {};
  const plain = [];
  for (let at = 0; at < words.length; at++) {
    const word = words[at];
    const [, name, given] = /^(--[a-z-]+|-[a-z])(?:=(.*))?$/s.exec(word) || [];
    const option = BY_WORD.get(name);
    if (!option && word.startsWith('-') && word !== '-') throw new UsageError(`there is no option ${word}${meant(word, [...BY_WORD.keys()])}`);
    if (!option) plain.push(word);
    else if (!option.value && given !== undefined) throw new UsageError(`${name} takes no value`);
    else if (!option.value) put(options, option, true);
    else {
      const value = given !== undefined ? given : words[++at];
      if (value === undefined) throw new UsageError(`${name} wants a value`);
      put(options, option, value);
    }
  }
  return { options, plain };
}

/**
 * Refuses options that a command does not take, or that do not go together.
 *
 * @param {string} command
 * @param {import('./types').Options} options
 */
function fit(command, options) {
  for (const { word, key, commands } of OPTIONS) {
    if (options[key] !== undefined && !commands.includes(command)) throw new UsageError(`${word} is not for ${command}`);
  }
  const other = options.reader === 'source' && OPTIONS.find(({ key }) => BY_TYPESCRIPT.includes(key) && options[key] !== undefined);
  if (other) throw new UsageError(`--reader source does not go with ${other.word}`);
  const isOther = options.format !== undefined && options.format !== 'json';
  if (options.json && isOther) throw new UsageError(`--json is --format json, and --format ${options.format} is asked for too`);
  if (options.only && options.exports !== undefined) throw new UsageError('--only goes by the entry points of the package, and --exports names others');
  if (options.watch && options.fix) throw new UsageError('--watch does not go with --fix');
  if (options.watch && DOCUMENTS.includes(options.format || '')) throw new UsageError(`--watch does not go with --format ${options.format}, which is one document`);
}

/** The help of the program, or of a command. */
function helpFor(/** @type {string[]} */ rest, /** @type {Options} */ options) {
  const [name] = rest;
  if (name !== undefined && !Object.hasOwn(COMMANDS, name)) throw new UsageError(`there is no command ${name}${meant(name, Object.keys(COMMANDS))}`);
  return { command: 'help', rest, options };
}

/**
 * What the words ask for: the command, the words behind it, and the options. Where no folder is named, it is the one that the command was started in.
 *
 * @param {string[]} words
 * @returns {import('./types').Asked}
 */
function parse(words) {
  if (words.length === 1 && words[0] === '--version') return { command: 'version', rest: [], options: {} };
  const { options, plain } = parted(words);
  const [command, ...rest] = plain;
  if (command === 'help' && rest.length < 2) return helpFor(rest, options);
  if (options.help && (command === undefined || Object.hasOwn(COMMANDS, command))) return { command: 'help', rest: plain, options };
  if (command === undefined) throw new UsageError('no command is given');
  if (!Object.hasOwn(COMMANDS, command)) throw new UsageError(`there is no command ${command}${meant(command, Object.keys(COMMANDS))}`);
  const { least, most } = COMMANDS[command];
  if (rest.length < least) throw new UsageError(`${command} wants ${least === 1 ? 'a word' : 'two words'}`);
  if (rest.length > most) throw new UsageError(`${command} does not take the word ${rest[most]}`);
  fit(command, options);
  const given = /** @type {Record<string, unknown>} */ (options);
  for (const [key, read] of Object.entries(READ)) {
    const value = given[key];
    if (value !== undefined) given[key] = Array.isArray(value) ? value.map(read) : read(String(value));
  }
  if (options.json && command === 'check') options.format = 'json';
  if (BY_EITHER.includes(command)) options.reader = options.reader || EITHER;
  return { command, rest: rest.length || !most ? rest : ['.'], options };
}

module.exports = { UsageError, meant, parse };
