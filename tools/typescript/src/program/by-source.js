'use strict';
// What the program `fast-check-source` answers of a folder: it reads TypeScript itself, and the compiler takes no part.
const fs = require('fs');
const path = require('path');
const { answersOf } = require('./answers.js');
const { tooDeep } = require('./input.js');
const { ProgramError, run, withFolder } = require('./run.js');
const { NO_COMPILER } = require('../compiler/find.js');
const { configOf, described, settingsOf } = require('../package/config.js');
const { isDeclarationFile, isInside, isJavaScript, mediaTypeOf, readText } = require('../package/files.js');
const { urlOf, withUrls } = require('../package/read.js');
const { Lookup, RELATIVE, Resolver, SCHEME, packageName } = require('../package/resolve.js');
const { refersTo } = require('../skeleton/effects.js');
const { Lines } = require('../tree/lines.js');

/** @typedef {import('./types').Answer} Answer */
/** @typedef {import('./types').Info} Info */
/** @typedef {import('./types').RunContext} RunContext */
/** @typedef {import('./types').AnalyseOptions} AnalyseOptions */
/** @typedef {import('../package/types').Module} Module */
/** @typedef {import('../package/types').Script} Script */
/** @typedef {{ path: string, line: number, column: number, code: string, message: string }} Said what the program says of a file, by its path from the folder */
/** @typedef {{ text: string, start: number, is_effect: boolean, target: string | null }} Lead a text by which a module names another one */
/** @typedef {{ path: string, leads: Lead[], names_return: boolean }} ReadFile */
/** @typedef {{ folder: string, entries: { key: string, path: string }[], taken: { written: string, path: string }[] }} Entries */
/** @typedef {{ errors: Said[], faults: Said[], warnings: Said[], packages: Entries[], files: ReadFile[], same: [first: string, others: string[]][] }} Told what the program says of a folder beside its answers */

const FILE = 'file:///';
// What the compiler reads as a fault and the program does not: a parameter with a question mark and a value.
const FAULT = /[\w$]\?\s*(?::[^=;\n{},)]*)?=(?![=>])/;
// What stands before what is asked of the program in its line, and behind it. No text has an unescaped quotation mark.
const [ANSWERS, INPUT, REST] = ['{"answers":', '{"input":', ',"errors":['];

/** The line of the program in two parts: what is asked of it, as JSON behind a head, and what it says besides. */
function parted(/** @type {string} */ line, /** @type {string} */ head) {
  const end = line.indexOf(REST);
  /** @type {Told | null} */
  const told = line.startsWith(head) && end >= 0 ? JSON.parse(`{${line.slice(end + 1)}`) : null;
  if (!told || !told.packages || !told.files || !told.same) throw new ProgramError('the program did not answer: it is of another version, and writes other lines', 5);
  return { text: line.slice(head.length, end), told };
}

/**
 * The lines of folders that are read before their turn.
 *
 * @type {Map<string, string>}
 */
const ahead = new Map();

/** Has the program read folders, by their whole paths, that are asked for next: one run takes a third of the time of many. Where it fails each is read in its turn. */
async function readAhead(/** @type {string} */ program, /** @type {string[]} */ dirs) {
  ahead.clear();
  try {
    const { status, out } = await run([program, ...dirs], () => {}, undefined);
    const lines = out.trimEnd().split('\n');
    if (status <= 2 && lines.length === dirs.length) dirs.forEach((dir, at) => ahead.set(dir, lines[at]));
  } catch (error) {
    if (!(error instanceof ProgramError)) throw error;
  }
}

/** The text of a file, or the one that is given in its place. */
function textOf(/** @type {string} */ file, /** @type {Map<string, string> | undefined} */ texts) {
  const given = texts && texts.get(file);
  return given === undefined ? readText(file).text : given;
}

/** The text of a file; null where it cannot be read. */
function textIn(/** @type {string} */ file) {
  try {
    return readText(file).text;
  } catch {
    return null;
  }
}

/**
 * The texts of modules below a folder that are others than those of their files, by the paths of the files.
 *
 * @returns {[file: string, text: string][]}
 */
function unsavedIn(/** @type {string} */ root, /** @type {Map<string, string> | undefined} */ texts) {
  return [...texts || []].filter(([file, text]) => {
    const mediaType = mediaTypeOf(file);
    const isModule = mediaType !== 'Unknown' && mediaType !== 'Json' && !isJavaScript(mediaType);
    return isModule && isInside(root, file) && textIn(file) !== text;
  });
}

/** Runs the program on a folder by some words, with texts in place of those of some files. */
function runOn(/** @type {string[]} */ asked, /** @type {string} */ dir, /** @type {[file: string, text: string][]} */ unsaved, /** @type {RunContext} */ { progress, isCommand, signal }) {
  const runBy = (/** @type {string[]} */ words) => run([...asked, ...words, dir], (line) => progress.line(line), signal);
  if (!unsaved.length) return runBy([]);
  return withFolder(isCommand, (folder) => runBy(unsaved.flatMap(([file, text], at) => {
    const beside = path.join(folder, String(at));
    // The program takes one mark of byte order away.
    fs.writeFileSync(beside, `\ufeff${text}`);
    return ['--text', path.relative(path.resolve(dir), file), beside];
  })));
}

/** The line that the program prints for a folder. */
async function lineOf(/** @type {string} */ program, /** @type {string} */ dir, /** @type {[file: string, text: string][]} */ unsaved, /** @type {RunContext} */ context) {
  const known = ahead.get(dir);
  ahead.delete(dir);
  return known === undefined ? lineBy(runOn([program], dir, unsaved, context), context) : known;
}

/** The line that a run of the program on a folder prints. */
async function lineBy(/** @type {ReturnType<typeof run>} */ begun, /** @type {RunContext} */ { progress }) {
  const { status, out, said, signal } = await progress.during('the program is at work', begun);
  if (status <= 2 && out.trim()) return /** @type {string} */ (out.trimEnd());
  const why = said || (signal ? `it was stopped by ${signal}` : `it ended with status ${status}`);
  throw new ProgramError(`the program did not answer: ${why.replace(/^error: /, '')}`, status > 2 && status <= 5 ? status : 5);
}

/** The compiler's tree of a file; an empty one where there is no compiler. */
function treeOf(/** @type {string} */ file, /** @type {string} */ text) {
  try {
    const { parse, toTree } = require('../tree/index.js');
    return toTree(parse(file, text), { short: true });
  } catch (error) {
    if (/** @type {import('../cli/types').KnownError} */ (error).code !== NO_COMPILER) throw error;
    return /** @type {import('../tree/types').Tree} */ (/** @type {unknown} */ ({ program: null, errors: [], faults: [] }));
  }
}

/** The module of a file that the program has read. The compiler reads it where its tree is asked for. */
function moduleOf(/** @type {Script} */ plain, /** @type {ReadFile} */ { leads, names_return: namesReturns }) {
  const { path: file, text, mediaType } = plain;
  const hasEffects = leads.some((it) => it.is_effect) || refersTo(text);
  const module = { ...plain, isDeclaration: isDeclarationFile(mediaType), hasEffects, namesReturns };
  /** @type {import('../tree/types').Tree | null} */
  let tree = null;
  Object.defineProperty(module, 'tree', {
    get() {
      tree = tree || treeOf(file, text);
      return tree;
    },
  });
  return /** @type {Module} */ (module);
}

/** What is known of a folder by what the program says of it. */
class Folder {
  constructor(/** @type {string} */ dir, /** @type {Told} */ told, /** @type {AnalyseOptions} */ options) {
    this.root = path.resolve(dir);
    this.told = told;
    this.texts = options.texts;
    this.lookup = Lookup.of(this.root);
    /** @type {import('../package/types').FileError[]} */
    this.errors = [];
    this.packages = this.configured(options);
    this.resolver = new Resolver(this.root, this.packages, this.lookup);
    /** @type {Info} */
    this.info = {
      packages: this.packages.map((it) => withUrls(it, it.exports, this.root)), entryPoints: [], modules: [], scripts: [], jsonModules: [], externals: [], missing: [],
      errors: this.errors, faults: [], taken: this.taken(), times: { parse: 0, tree: 0 },
    };
    this.info.entryPoints = this.info.packages.flatMap((it) => it.entryPoints);
    /** @type {import('../package/types').Resolution[]} */
    this.resolutions = [];
    for (const it of told.files) this.add(it);
  }

  /** The packages by their configurations, with the entry points that the program found. */
  configured(/** @type {AnalyseOptions} */ options) {
    const config = configOf(this.root, this.lookup.files, this.errors);
    return this.told.packages.map(({ folder, entries }) => {
      const dir = path.join(this.root, folder);
      const own = dir === this.root ? config : configOf(dir, this.lookup.files, this.errors);
      const exports = entries.map(({ key, path: file }) => /** @type {[string, string]} */ ([key, path.join(this.root, file)]));
      return { ...described(dir, own, { dir: this.root, config }, {}, options), exports };
    });
  }

  taken() {
    return this.told.packages.flatMap(({ folder, taken }) => taken.map(({ written, path: file }) => ({ written, dir: path.join(this.root, folder), file: path.join(this.root, file) })));
  }

  add(/** @type {ReadFile} */ read) {
    const file = path.join(this.root, read.path);
    const mediaType = mediaTypeOf(file);
    if (mediaType === 'Unknown') return;
    const plain = { specifier: urlOf(this.root, file), path: file, text: textOf(file, this.texts), mediaType };
    if (mediaType === 'Json') this.info.jsonModules.push(plain);
    else if (isJavaScript(mediaType)) this.info.scripts.push(plain);
    else this.addModule(plain, read);
  }

  addModule(/** @type {Script} */ plain, /** @type {ReadFile} */ read) {
    const lines = new Lines(plain.text);
    const leads = read.leads.map(({ text, start, target }) => ({ text, target, offset: lines.offset(start) }));
    this.info.modules.push(Object.assign(moduleOf(plain, read), { leads }));
    for (const each of leads) this.lead(plain, each);
  }

  /** Where a text of a module leads. */
  lead(/** @type {Script} */ { specifier: from, path: file }, /** @type {{ text: string, target: string | null, offset: number }} */ { text, target, offset }) {
    if (target !== null && target.startsWith(FILE) && !text.startsWith('file:')) this.resolutions.push([from, text, target]);
    else if (RELATIVE.test(text)) this.info.missing.push({ path: file, offset, text, isOutside: !this.lookup.files.isBelow(path.resolve(path.dirname(file), text)) });
    else {
      const specifier = SCHEME.test(text) ? text : `npm:${text}`;
      this.info.externals.push({ path: file, offset, text, specifier, name: packageName(text), isExplained: this.resolver.isExplained(file, text) });
      this.resolutions.push([from, text, specifier]);
    }
  }

  /** Whether something is to be said of the folder by the compiler's words, or may be: where it reads imports and entry points, it may find more. */
  get needsWords() {
    const { errors, faults, warnings, packages } = this.told;
    const { externals, missing, modules } = this.info;
    const isOdd = missing.length > 0 || externals.some((it) => !it.isExplained) || modules.some(({ text }) => FAULT.test(text));
    return isOdd || !packages.length || [...this.errors, ...errors, ...faults, ...warnings].length > 0;
  }
}

/** Whether the settings of a package name entry points, and no setting counts. */
function hasPassedOver(/** @type {Folder} */ { root, told, lookup }, /** @type {AnalyseOptions} */ { noIgnore }) {
  if (!noIgnore) return false;
  return told.packages.some(({ folder }) => {
    const written = configOf(path.join(root, folder), lookup.files, []);
    return settingsOf(written, {}).exports !== undefined;
  });
}

/** A request of a folder that the program reads itself: where texts lead is asked of it. */
function requestOf(/** @type {import('../package/types').Resolution[]} */ resolutions) {
  return { graph: { modules: [], resolutions, packages: [] }, modules: [], aliases: [], workspace_members: [], provider: { packages: [], fallback: '' }, pending: [], first: false };
}

/**
 * The answers of a line, with those of the entry points that are answered as another one: a package's diagnostics are written once.
 *
 * @returns {Answer[]}
 */
function allAnswers(/** @type {string} */ text, /** @type {Told} */ { same }) {
  const answers = answersOf(text);
  const found = new Map(answers);
  for (const [first, others] of same) {
    const answer = found.get(first);
    if (answer) for (const other of others) answers.push([other, answer]);
  }
  return answers;
}

/**
 * What the program answers of a folder, and what is known of it besides. Where something is wrong with its configurations, its imports or its syntax, `info` is null: the
 * compiler says it by its own words, and `told` has what the program says.
 *
 * @param {string} program
 * @param {string} dir
 * @param {AnalyseOptions} options
 * @param {RunContext} context
 */
async function readBySource(program, dir, options, context) {
  const begun = Date.now();
  const unsaved = unsavedIn(path.resolve(dir), options.texts);
  const { text, told } = parted(await lineOf(program, dir, unsaved, context), ANSWERS);
  const reading = context.reading || ((/** @type {() => Folder} */ call) => call());
  const folder = reading(() => new Folder(dir, told, options));
  if (context.beside) context.beside(folder.root, begun);
  const isRead = !folder.needsWords && !hasPassedOver(folder, options);
  return { answers: allAnswers(text, told), told, info: isRead ? folder.info : null, request: requestOf(folder.resolutions) };
}

/**
 * The skeletons of a folder as the program prints them: their texts by the paths of their modules.
 *
 * @param {string} program
 * @param {string} dir
 * @param {AnalyseOptions} options
 * @param {RunContext} context
 * @returns {Promise<Map<string, string>>}
 */
async function textsBySource(program, dir, options, context) {
  const lines = await lineBy(runOn([program, '--skeleton'], dir, unsavedIn(path.resolve(dir), options.texts), context), context);
  return new Map(lines.split('\n').map((line) => {
    /** @type {{ path: string, text: string }} */
    const { path: name, text } = JSON.parse(line);
    return [name, text];
  }));
}

/** Whether a module of a request is nested too deep for the program that is asked. */
function hasTooDeep(/** @type {import('./types').Request} */ { modules }) {
  return modules.some(([, { Esm }]) => Esm && tooDeep(/** @type {forms.Part} */ (/** @type {import('./types').Source} */ (Esm.source).program)));
}

/**
 * The request that the program makes of a folder, as JSON, and what it says besides. Where the compiler says what is wrong with the folder, it is null.
 *
 * @param {string} program
 * @param {string} dir
 * @param {AnalyseOptions} options
 * @param {RunContext} context
 */
async function inputBySource(program, dir, options, context) {
  const begun = run([program, '--input', dir], (line) => context.progress.line(line), context.signal);
  const { text, told } = parted(await lineBy(begun, context), INPUT);
  const isRead = !new Folder(dir, told, options).needsWords && !hasTooDeep(JSON.parse(text));
  return { input: isRead ? text : null, told };
}

module.exports = { inputBySource, readAhead, readBySource, textOf, textsBySource };
