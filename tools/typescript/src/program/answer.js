'use strict';
// From a folder to what the program answers of it: skeletons by module, or messages with their places.
const fs = require('fs');
const path = require('path');
const { inputBySource, readBySource, textOf } = require('./by-source.js');
const { EITHER, sourceProgramFile } = require('./program.js');
const { ProgramError, lineOf } = require('./run.js');
const { INTERNAL } = require('../cli/exit.js');
const { NEWEST } = require('../cli/installed.js');
const { isInside, readText } = require('../package/files.js');
const { hintOf } = require('../messages/hints.js');
const { answersOf } = require('./answers.js');
const { inputOf } = require('./input.js');
const { LastAnswer } = require('./last-answer.js');
const { restored } = require('../skeleton/restored.js');
const { Lines } = require('../tree/lines.js');
const { requestText, withTreesOf } = require('./request.js');
const { variantOf } = require('../tree/walk.js');
const { previewOf } = require('./preview.js');
const { skeletonMessages } = require('../skeleton/messages.js');
const { NO_COMPILER, candidateFiles, refuseWrongVariable } = require('../compiler/find.js');
const typescript = require('../compiler/typescript.js');

/** @typedef {import('../messages/types').Message} Message */
/** @typedef {import('./types').Request} Request */
/** @typedef {import('../package/types').FileError} FileError */
/** @typedef {import('./types').Skeleton} Skeleton */
/** @typedef {import('./types').Answer} Answer */
/** @typedef {import('./types').World} World */
/** @typedef {import('./types').Info} Info */
/** @typedef {import('./types').RunContext} RunContext */
/** @typedef {import('./types').AnalyseOptions} AnalyseOptions */
/** @typedef {import('./types').SourceFile} SourceFile */
/** @typedef {import('../package/types').Module} Module */
/** @typedef {import('./types').ReadFolder} ReadFolder */
/** @typedef {import('./types').Diagnostic} Diagnostic */

/** A folder that cannot be read; `messages` say why, and `text` says it where there is no place. */
class ReadError extends Error {
  constructor(/** @type {string} */ text, /** @type {Message[]} */ messages) {
    super(text);
    this.messages = messages;
    this.status = statusOf(messages) || 2;
  }
}

/** The name of a file as it is shown: from the folder that the command was started in, where it lies below it. */
function shownName(/** @type {string} */ file, /** @type {string} */ cwd) {
  const relative = path.relative(cwd, file);
  return relative.startsWith('..') || path.isAbsolute(relative) ? file : relative || '.';
}

const CONFIGURATION = /\.jsonc?$/;

/** The code of an error of reading: of a folder, of its configuration, or of a source. */
function codeOf(/** @type {FileError} */ error) {
  if (error.code) return error.code;
  if (CONFIGURATION.test(error.path)) return 'bad-configuration';
  return !fs.existsSync(error.path) || fs.statSync(error.path).isDirectory() ? 'no-entry-point' : 'syntax-error';
}

/** The text of a configuration with its lines, of which no module is made. */
function configSource(/** @type {FileError} */ error) {
  if (!error.line || !CONFIGURATION.test(error.path)) return null;
  const { text } = readText(error.path);
  return { text, lines: new Lines(text) };
}

/** The message for an error of reading, with its place where it has one. */
function readMessage(/** @type {FileError} */ error, /** @type {string} */ cwd, /** @type {Map<string, SourceFile>} */ sources) {
  /** @type {Message} */
  const message = { level: error.level || 'Error', code: codeOf(error), message: error.message, info: [], hint: error.hint || null };
  if (error.path) message.file = shownName(error.path, cwd);
  const source = sources.get(error.path) || configSource(error);
  if (!source || !error.line) return message;
  const line = Math.min(error.line, source.lines.starts.length) - 1;
  const start = Math.min(source.lines.starts[line] + Math.max(0, (error.column || 1) - 1), source.text.length);
  return { ...message, lines: source.lines, start, end: Math.min(start + (error.length || 0), source.text.length) };
}

/** The folder's modules by their specifiers: the path, the name from the folder, the text with its lines. */
function filesOf(/** @type {Info} */ info, /** @type {string} */ dir) {
  /** @type {Map<string, SourceFile>} */
  const files = new Map();
  for (const module of [...info.modules, ...(info.scripts || [])]) {
    const file = { specifier: module.specifier, path: module.path, text: module.text, name: path.relative(dir, module.path).split(path.sep).join('/') };
    /** @type {Lines | null} */
    let lines = null;
    Object.defineProperty(file, 'lines', { get: () => (lines = lines || new Lines(file.text)) });
    files.set(module.specifier, /** @type {SourceFile} */ (file));
  }
  return files;
}

/** The name of a module that was not read, as an entry point that is not there. */
function absentName(/** @type {string} */ specifier, /** @type {string} */ dir, /** @type {string} */ cwd) {
  const inside = /^file:\/\/\/(.*)$/.exec(specifier);
  return inside ? shownName(path.join(dir, decodeURIComponent(inside[1])), cwd) : specifier;
}

/**
 * A diagnostic of the program as a message with its place.
 *
 * @returns {Message}
 */
function messageOf(/** @type {Diagnostic} */ diagnostic, /** @type {Pick<ReadFolder, 'files' | 'dir' | 'info'>} */ { files, dir, info }, /** @type {string} */ cwd) {
  const file = files.get(diagnostic.specifier);
  const message = {
    level: diagnostic.level, code: diagnostic.code, message: diagnostic.message, ...hintOf(diagnostic, info.modules.find((it) => it.specifier === diagnostic.specifier)),
    docs: diagnostic.docs_url, specifier: diagnostic.specifier, file: file ? shownName(file.path, cwd) : absentName(diagnostic.specifier, dir, cwd),
  };
  if (!file || !diagnostic.range) return message;
  return { ...message, lines: file.lines, start: file.lines.offset(diagnostic.range[0]), end: file.lines.offset(diagnostic.range[1]) };
}

/**
 * The answers parted into skeletons and messages. The list of a package stands at each of its entry points, and is reported once.
 *
 * @returns {{ skeletons: Map<string, Skeleton>, messages: Message[] }}
 */
function part(/** @type {Answer[]} */ answers, /** @type {Pick<ReadFolder, 'files' | 'dir' | 'info'>} */ world, /** @type {string} */ cwd) {
  /** @type {Map<string, Skeleton>} */
  const skeletons = new Map();
  /** @type {Map<string, Diagnostic>} */
  const messages = new Map();
  for (const [specifier, answer] of answers) {
    if (answer.Ok) skeletons.set(specifier, answer.Ok);
    else for (const each of answer.Err || []) messages.set(JSON.stringify(each), each);
  }
  return { skeletons, messages: [...messages.values()].map((each) => messageOf(each, world, cwd)) };
}

/** The places of the sources whose names a module exports again: of `export .. from`, and of imports of names that it exports. */
function reExported(/** @type {Module} */ { tree: { program } }) {
  const all = ((program && program.Module && program.Module.body) || []).flatMap(({ ModuleDecl: it }) => it || []);
  const exported = all.flatMap((it) => it.ExportAll || it.ExportNamed || []);
  const lists = all.flatMap(({ ExportNamed: it }) => (it && !it.src && it.specifiers) || []);
  const names = new Set(lists.map(({ Named: it }) => it && it.orig.Ident && it.orig.Ident.sym));
  const imports = all.flatMap((it) => it.Import || []).filter(({ specifiers = [] }) => specifiers.some((it) => names.has(variantOf(it)[1].local.sym)));
  return new Set([...exported, ...imports].flatMap(({ src }) => (src ? src.span[0] : [])));
}

/** Finds the modules of a folder by their paths. */
function byPath(/** @type {Map<string, SourceFile>} */ files) {
  const found = new Map([...files.values()].map((file) => [file.path, file]));
  return (/** @type {string} */ at) => /** @type {SourceFile} */ (found.get(at));
}

/**
 * The imports that lead to no file of the folder, as messages: an error where an entry point exports what it asks for.
 *
 * @returns {Message[]}
 */
function missingMessages(/** @type {Info} */ info, /** @type {Map<string, SourceFile>} */ files, /** @type {string} */ cwd) {
  const modules = new Map(info.modules.map((it) => [it.specifier, it]));
  const isLost = (/** @type {string} */ specifier, /** @type {number} */ offset) => {
    const [module, file] = [modules.get(specifier), files.get(specifier)];
    return Boolean(module && file && info.entryPoints.includes(specifier) && [...reExported(module)].some((it) => file.lines.offset(it) === offset));
  };
  const fileAt = byPath(files);
  return info.missing.map(({ path: at, offset, text, isOutside }) => {
    const { lines, specifier } = fileAt(at);
    const [message, hint] = isOutside
      ? [`the module '${text}' lies outside of the folder`, 'give the path of a file of the package, or name another package']
      : [`there is no module '${text}'`, 'give the path of a file that is there'];
    const place = { file: shownName(at, cwd), lines, start: offset, end: offset + text.length + 2 };
    /** @type {['Error' | 'Warning', string]} */
    const [level, told] = isLost(specifier, offset)
      ? ['Error', 'this entry point exports names of it, which nobody could import']
      : ['Warning', 'what is asked of this module is not followed'];
    return { level, code: 'missing-module', message, hint, info: [told], specifier, ...place };
  });
}

/**
 * The imports that nothing explains, as messages: each name once, at its first place.
 *
 * @returns {Message[]}
 */
function unresolvedMessages(/** @type {Info} */ info, /** @type {Map<string, SourceFile>} */ files, /** @type {string} */ cwd) {
  const fileAt = byPath(files);
  /** @type {Map<string, import('../package/types').External>} */
  const first = new Map();
  for (const each of info.externals) if (!each.isExplained && !first.has(each.name)) first.set(each.name, each);
  return [...first.values()].map(({ path: at, offset, text, name }) => {
    const { lines, specifier } = fileAt(at);
    return {
      level: 'Warning', code: 'unresolved-import', message: `nothing says what '${name}' is`,
      specifier, file: shownName(at, cwd), lines, start: offset, end: offset + text.length + 2,
      hint: 'name it among the dependencies, in the map of imports, or in `paths` of tsconfig.json',
      info: ['what is asked of it is not followed'],
    };
  });
}

// Forms that compilers before 5.2 do not read.
const NEWER_FORMS = new RegExp([
  '\\bsatisfies\\b', '\\baccessor\\b', '\\busing\\b', '[<,]\\s*const\\s+[\\w$]', '\\bwith\\s*\\{', '\\bimport\\s+defer\\b', '\\bexport\\s+type\\s*\\*',
  '\\bas\\s*["\']', '[{,]\\s*(?:"[^"]*"|\'[^\']*\')\\s*(?:as\\b|[,}])',
].join('|'));

/** Whether a newer compiler may read what an older one does not: the line of an error, or the one above it, has a newer form. */
function hasNewerForm(/** @type {Message} */ { code, lines, start }) {
  if (code !== 'syntax-error' || !lines || start === undefined) return false;
  const { line } = lines.place(start);
  return NEWER_FORMS.test(lines.line(line)) || (line > 0 && NEWER_FORMS.test(lines.line(line - 1)));
}

/**
 * Where an older compiler finds an error at a newer form, the first of a run says how a newer one is had.
 *
 * @returns {Message[]}
 */
function withNewer(/** @type {Message[]} */ messages, /** @type {RunContext} */ context) {
  if (context.isNewerNamed || !messages.some(hasNewerForm) || typescript.isFrom(5, 2)) return messages;
  context.isNewerNamed = true;
  const first = messages.find(hasNewerForm);
  const advice = NEWEST ? `\`export TYPESCRIPT=$(${shownName(NEWEST, context.cwd)} FOLDER)\` fetches it` : '`npm install --save-dev typescript` fetches it';
  const more = `TypeScript ${typescript.version} reads this; a newer one reads newer forms: ${advice}`;
  return messages.map((each) => (each === first ? { ...each, info: [...(each.info || []), more] } : each));
}

/**
 * Reads a folder: its request for the program, what is known of its files, and why packages of it cannot be read, which is an error where none can.
 *
 * @returns {import('./types').ReadFolder}
 */
function read(/** @type {string} */ dir, /** @type {AnalyseOptions} */ options, /** @type {RunContext} */ context) {
  const { cwd, progress } = context;
  progress.begin(`reading ${shownName(dir, cwd)}`);
  const onModule = (/** @type {string} */ name, /** @type {number} */ count) => progress.tell(`reading ${name} (${count})`);
  const { request, info } = inputOf(dir, { ...options, onModule });
  const files = filesOf(info, dir);
  const sources = new Map([...files.values()].map((file) => [file.path, file]));
  const broken = withNewer(info.errors.map((error) => readMessage(error, cwd, sources)), context);
  const faults = info.faults.map((error) => readMessage(error, cwd, sources));
  if (request === null) {
    const reader = broken.some((each) => each.code === 'syntax-error') ? ` by TypeScript ${typescript.version}` : '';
    throw new ReadError(`${shownName(dir, cwd)} cannot be read${reader}`, [...broken, ...faults]);
  }
  const missing = missingMessages(info, files, cwd);
  const ofLevel = (/** @type {string} */ level) => missing.filter((it) => it.level === level);
  const warnings = [...ofLevel('Warning'), ...unresolvedMessages(info, files, cwd)];
  return { dir, request, info, files, warnings, broken, faults, lost: ofLevel('Error') };
}

/** The package of a module, or of a file of the folder, by its folder: the innermost one. */
function packageOf(/** @type {Info} */ info, /** @type {string} */ file) {
  const around = info.packages.filter(({ dir }) => dir === file || isInside(dir, file));
  return around.sort((a, b) => b.dir.length - a.dir.length)[0];
}

/** Takes the skeletons of the packages of some files, of which something is wrong that the program does not know. */
function withoutFaulty(/** @type {Pick<World, 'info' | 'files' | 'skeletons'>} */ { info, files, skeletons }, /** @type {string[]} */ paths) {
  const faulty = new Set(paths.flatMap((each) => packageOf(info, each) || []));
  if (!faulty.size) return skeletons;
  const packageOfModule = (/** @type {string} */ specifier) => {
    const file = files.get(specifier);
    return file && packageOf(info, file.path);
  };
  return new Map([...skeletons].filter(([specifier]) => {
    const own = packageOfModule(specifier);
    return !own || !faulty.has(own);
  }));
}

/**
 * What the program answers to a request, or answered to one of the same shape, where the request is that of a folder, or made of it for a purpose that has a name.
 *
 * @param {Request} request
 * @param {import('../cli/types').Options} options
 * @param {RunContext} context
 * @param {{ dir: string, info: Info, name: string | null }} of
 */
async function answersTo(request, { unproved, kept }, { progress, environment, isCommand, signal }, { dir, info, name }) {
  if (signal && signal.aborted) throw signal.reason;
  const last = name === null ? null : LastAnswer.of({ dir, info, name }, request, kept, environment);
  const known = last && last.answers();
  if (known) return restored(known, request, info.modules);
  const tell = (/** @type {string} */ line) => progress.line(line);
  const line = await progress.during('the program is at work', lineOf(request, { unproved, environment, tell, isCommand, signal }));
  if (last) last.keep(line);
  return restored(answersOf(line), request, info.modules);
}

/** The specifiers of some files. */
function specifiersOf(/** @type {Pick<ReadFolder, 'files'>} */ { files }, /** @type {Set<string>} */ paths) {
  return new Set([...files].filter(([, file]) => paths.has(file.path)).map(([specifier]) => specifier));
}

/**
 * A folder that was read with the program's answers: `messages` are those of packages that can be read.
 *
 * @param {ReadFolder} world
 * @param {Answer[]} answers
 * @param {{ cwd: string }} context
 * @returns {World}
 */
function withAnswers(world, answers, { cwd }) {
  const { skeletons, messages } = part(answers, world, cwd);
  const told = skeletonMessages({ ...world, skeletons }, (/** @type {string} */ file) => shownName(file, cwd));
  const [warnings, errors] = [true, false].map((isWarning) => told.filter(({ level }) => (level === 'Warning') === isWarning));
  const faulty = [...world.info.faults.filter((it) => it.level !== 'Warning').map((it) => it.path), ...[...world.lost, ...errors].flatMap((it) => world.files.get(it.specifier || '') || []).map((it) => it.path)];
  const left = withoutFaulty({ ...world, skeletons }, faulty);
  return { ...world, answers, skeletons: left, warnings: [...world.warnings, ...warnings], messages: [...world.faults, ...world.lost, ...messages, ...errors] };
}

/**
 * Reads a folder and runs the program on it. `broken` says why packages of it cannot be read; `messages` are of the others. With `treesOf`, a
 * set of paths, only messages of these files are complete where the compiler reads (`withTreesOf`).
 *
 * @param {string} dir
 * @param {AnalyseOptions} options
 * @param {RunContext} context
 * @returns {Promise<World>}
 */
async function analyse(dir, options, context) {
  const program = sourceProgram(dir, options, context);
  return program ? analyseBySource(program, dir, options, context) : analyseByCompiler(dir, options, context);
}

/**
 * The same by the compiler's reader.
 *
 * @param {string} dir
 * @param {AnalyseOptions} options
 * @param {RunContext} context
 * @returns {Promise<World>}
 */
async function analyseByCompiler(dir, options, context) {
  const reading = context.reading || ((call) => call());
  const world = reading(() => read(dir, options, context));
  if (options.treesOf && world.request) world.request = withTreesOf(world.request, specifiersOf(world, options.treesOf));
  const ask = (/** @type {Request} */ request, /** @type {string | null} */ name = null) => answersTo(request, options, context, { ...world, name });
  const made = withAnswers(world, await ask(world.request, options.treesOf ? null : 'all'), context);
  return options.preview ? { ...made, preview: await previewFor(made, ask) } : made;
}

// What is asked of a folder that its files do not say, or of trees. A watched folder is read again and again, for which the compiler's trees are kept.
/** @type {(keyof AnalyseOptions)[]} */
const BY_COMPILER = ['name', 'version', 'exports', 'rules', 'within', 'members', 'keepSourceFiles', 'verify', 'dts', 'withDts', 'watch'];

// A folder of more files is read by the compiler from the second run on: what it keeps takes less then than to read all again. In an editor it is one of more files than
// that: the edit behind which the compiler begins waits for all that is to be kept.
const MANY = 100;
const MANY_EDITED = 500;

/** Whether what is noted of a folder holds for later runs: not of one whose texts are being edited. */
const isLasting = (/** @type {AnalyseOptions} */ { texts }) => !texts;

/** The program that reads folders, where it is to; null where the compiler is. */
function sourceProgram(/** @type {string} */ dir, /** @type {AnalyseOptions} */ options, /** @type {RunContext} */ { environment }) {
  const { reader = 'typescript', kept } = options;
  if (reader === 'typescript' || BY_COMPILER.some((it) => options[it])) return null;
  if (reader === EITHER) refuseWrongVariable();
  if (reader === EITHER && kept && candidateFiles().length && kept.isForCompiler(path.resolve(dir), isLasting(options))) return null;
  const program = sourceProgramFile(environment);
  if (program || reader === EITHER) return program;
  throw new ProgramError('there is no fast-check-source beside the other program, and the variable FAST_CHECK_SOURCE names none', 5);
}

/**
 * The same by the program that reads the folder itself. What it cannot say by the compiler's words is asked of the compiler: what is wrong with configurations, imports
 * and syntax, and a preview.
 *
 * @param {string} program
 * @param {string} dir
 * @param {AnalyseOptions} options
 * @param {RunContext} context
 * @returns {Promise<World>}
 */
async function analyseBySource(program, dir, options, context) {
  const { answers, told, info, request } = await readBySource(program, dir, options, context);
  if (told.files.length > (isLasting(options) ? MANY : MANY_EDITED)) noteForCompiler(dir, options);
  /** @type {World | null} */
  let own = null;
  if (info) {
    const read = { dir, request, info, files: filesOf(info, dir), warnings: [], broken: [], faults: [], lost: [] };
    own = { ...withAnswers(read, answers, context), isBySource: true };
    if (!options.preview || own.messages.every(({ level }) => level === 'Warning')) return own;
  }
  noteForCompiler(dir, options);
  try {
    return await analyseByCompiler(dir, options, context);
  } catch (error) {
    if (own && (isNoCompiler(error) || error instanceof ReadError)) return own;
    throw isNoCompiler(error) ? saidError(told, dir, options, context) : error;
  }
}

/** The request of a folder as JSON, by the compiler's reader, and why packages of it cannot be read. */
function requestByCompiler(/** @type {string} */ dir, /** @type {AnalyseOptions} */ options, /** @type {RunContext} */ context) {
  const { request, broken } = read(dir, options, context);
  return { text: requestText(request), broken };
}

/**
 * The same by the reader that is to read the folder.
 *
 * @param {string} dir
 * @param {AnalyseOptions} options
 * @param {RunContext} context
 * @returns {Promise<{ text: string, broken: Message[] }>}
 */
async function requestOf(dir, options, context) {
  const program = sourceProgram(dir, options, context);
  if (!program) return requestByCompiler(dir, options, context);
  const { input, told } = await inputBySource(program, dir, options, context);
  if (input === null || told.files.length > MANY) noteForCompiler(dir, options);
  if (input !== null) return { text: input, broken: [] };
  try {
    return requestByCompiler(dir, options, context);
  } catch (error) {
    throw isNoCompiler(error) ? saidError(told, dir, options, context) : error;
  }
}

/** Has the compiler read a folder from the next run on. */
function noteForCompiler(/** @type {string} */ dir, /** @type {AnalyseOptions} */ options) {
  const { kept } = options;
  if (kept) kept.noteForCompiler(path.resolve(dir), isLasting(options));
}

function isNoCompiler(/** @type {unknown} */ error) {
  return /** @type {import('../cli/types').KnownError} */ (error).code === NO_COMPILER;
}

/** The error of a folder that cannot be read, in the program's own words. */
function saidError(/** @type {import('./by-source.js').Told} */ told, /** @type {string} */ dir, /** @type {AnalyseOptions} */ options, /** @type {RunContext} */ { cwd }) {
  return new ReadError(`${shownName(dir, cwd)} cannot be read`, saidMessages(told, dir, options, cwd));
}

/** What the program says of a folder, as messages. */
function saidMessages(/** @type {import('./by-source.js').Told} */ { errors, faults, warnings }, /** @type {string} */ dir, /** @type {AnalyseOptions} */ { texts: given }, /** @type {string} */ cwd) {
  const all = [...errors, ...faults, ...warnings].map((it) => ({ ...it, path: path.join(dir, it.path) }));
  const texts = new Map(all.filter((it) => it.line && fs.existsSync(it.path)).map(({ path: file }) => [file, textOf(file, given)]));
  const files = new Map([...texts].map(([file, text]) => [file, /** @type {SourceFile} */ ({ path: file, text, lines: new Lines(text) })]));
  return all.map((error) => readMessage(error, cwd, files));
}

/** The preview of the packages that have no skeletons, since they have messages; null where there are none, or nothing can be shown. */
async function previewFor(/** @type {World} */ world, /** @type {(request: Request) => Promise<Answer[]>} */ ask) {
  const { request, answers, skeletons, messages } = world;
  if (!messages.some((it) => it.level !== 'Warning')) return null;
  const found = await previewOf(request, answers, ask);
  const own = found ? skeletonMessages({ ...world, skeletons: found.skeletons }, (/** @type {string} */ file) => file) : [];
  const wrong = new Set([...messages, ...own].filter((it) => it.level !== 'Warning').map((it) => it.specifier));
  return found && { ...found, skeletons: new Map([...found.skeletons].filter(([specifier]) => !skeletons.has(specifier) && !wrong.has(specifier))) };
}

/** The status of messages that say why something cannot be read. */
function statusOf(/** @type {Message[]} */ broken) {
  if (broken.some((each) => each.code === 'internal-error')) return INTERNAL;
  return broken.length ? 2 : 0;
}

module.exports = { analyse, answersTo, filesOf, packageOf, part, requestOf, shownName, statusOf };
