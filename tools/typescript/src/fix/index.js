'use strict';
// Writes the types that messages ask for, as TypeScript's compiler infers them, until nothing more is gained.
const path = require('path');
const { analyse } = require('../program/answer.js');
const { FIXABLE } = require('../messages/codes.js');
const { configOf } = require('../package/config.js');
const { Files, isJavaScript, mediaTypeOf } = require('../package/files.js');
const { Lookup, RELATIVE } = require('../package/resolve.js');
const { Projects } = require('../package/tsconfig.js');
const { NotFixed, TypeWriter, applied, editsFor, importEdits } = require('./type-writer.js');
const { Naming } = require('./naming.js');
const { Surroundings } = require('../package/surroundings.js');
const { whole: ts } = require('../compiler/typescript.js');
const { resolver } = require('../skeleton/modules.js');

/** @typedef {import('../messages/types').Message} Message */
/** @typedef {import('../messages/types').PlacedMessage} PlacedMessage */
/** @typedef {import('../program/types').RunContext} RunContext */
/** @typedef {import('../program/types').AnalyseOptions} AnalyseOptions */
/** @typedef {import('./types').Made} Made */
/** @typedef {import('../program/types').World} World */
/** @typedef {import('./types').FileToEdit} FileToEdit */
/** @typedef {import('./types').Edit} Edit */
/** @typedef {import('./types').FoundError} FoundError */

const ROUNDS = 10;
/** The ending of a file, as the compiler names it. */
const endingOf = (/** @type {string} */ file) => (/\.d\.[cm]?ts$|\.[a-z]+$/.exec(file) || [''])[0];
const ENDING = /(\.d)?\.[cm]?tsx?$/;
// What the compiler says of something whose type is `any` since it finds none, as in a circle.
const NO_TYPE = new Set([7005, 7006, 7008, 7010, 7011, 7016, 7018, 7019, 7022, 7023, 7024, 7031, 7034]);
// Of them, what it says of a circle.
const CIRCLE = new Set([7022, 7023, 7024]);

/** Where the types of elements come from, by the nearest deno.json of a folder or its workspace. */
function ofDeno(/** @type {string} */ dir, /** @type {string} */ top, /** @type {Files} */ files) {
  const found = [dir, top].map((it) => configOf(it, files, []).compilerOptions).find(Boolean) || {};
  return typeof found.jsxImportSource === 'string' ? { jsxImportSource: found.jsxImportSource } : {};
}

/** The options of the nearest tsconfig.json above a folder, inside of its workspace, as far as types depend on them. What it extends may lie anywhere. */
function optionsOf(/** @type {string} */ dir, /** @type {string | null} */ workspace) {
  const top = workspace || dir;
  const files = new Files(path.parse(top).root);
  const options = new Projects(top, files).nearest(dir);
  const written = Object.fromEntries(Object.entries(options).filter(([, value]) => value !== undefined));
  const defaults = { strict: true, target: ts.ScriptTarget.ESNext, module: ts.ModuleKind.ESNext, moduleResolution: ts.ModuleResolutionKind.NodeJs };
  const own = { noEmit: true, declaration: true, composite: false, incremental: false, skipLibCheck: true, noImplicitAny: true, allowJs: false };
  return { allowImportingTsExtensions: true, ...defaults, jsx: ts.JsxEmit.ReactJSX, ...ofDeno(dir, top, files), resolveJsonModule: true, ...written, ...own };
}

const LIBRARIES = path.dirname(ts.getDefaultLibFilePath({}));
/**
 * The compiler's own libraries, which folders share, by the version of the language that they are read for.
 *
 * @type {Map<string, ts.SourceFile | undefined>}
 */
const shared = new Map();

/**
 * A file that is none of the folder's, as a host of the compiler reads it.
 *
 * @param {ts.CompilerHost} host
 * @param {string} name
 * @param {ts.ScriptTarget | ts.CreateSourceFileOptions} target
 */
function libraryOf(host, name, target) {
  if (path.dirname(name) !== LIBRARIES) return host.getSourceFile(name, target);
  const key = `${name} ${typeof target === 'object' ? target.languageVersion : target}`;
  if (!shared.has(key)) shared.set(key, host.getSourceFile(name, target));
  return shared.get(key);
}

/** The compiler over the modules of a folder, with texts in place of those of the files, and the packages that are found. */
class Project {
  constructor(/** @type {string} */ dir) {
    this.dir = dir;
    this.lookup = Lookup.of(dir);
    this.surroundings = new Surroundings(dir);
    this.options = optionsOf(dir, this.surroundings.workspace);
    this.host = { ...ts.createCompilerHost(this.options, true), getCurrentDirectory: () => dir };
    /** @type {Map<string, ts.SourceFile | undefined>} */
    this.libraries = new Map();
    /** @type {Map<string, ts.SourceFile>} */
    this.sources = new Map();
    /** @type {Map<string, ts.ResolvedModuleFull | undefined>} */
    this.found = new Map();
    /** @type {{ texts: Map<string, string>, program: ts.Program } | null} */
    this.last = null;
  }

  /** A text as a source file: that of the last program, where the text is the same. */
  source(/** @type {string} */ name, /** @type {string} */ text, /** @type {ts.ScriptTarget | ts.CreateSourceFileOptions} */ target) {
    const known = this.sources.get(name);
    if (known && known.text === text) return known;
    const made = ts.createSourceFile(name, text, target, true);
    this.sources.set(name, made);
    return made;
  }

  /** A module of the folder that no other one asks for but by `import(..)`, whose ending the compiler may not read. */
  beside(/** @type {string} */ text, /** @type {string} */ from) {
    const file = RELATIVE.test(text) ? this.lookup.at(from, text) : null;
    if (file === null || isJavaScript(mediaTypeOf(file)) || !ENDING.test(file) || this.lookup.files.refusal(file)) return undefined;
    return { resolvedFileName: file, extension: endingOf(file), isExternalLibraryImport: false };
  }

  /** Where a text of a file leads that is of no module of the folder which was read. */
  outside(/** @type {string} */ text, /** @type {string} */ from) {
    const key = `${path.dirname(from)}\n${text}`;
    if (!this.found.has(key)) this.found.set(key, /** @type {ts.ResolvedModuleFull | undefined} */ (this.surroundings.resolve(text, from, this.options, this.host) || this.beside(text, from)));
    return this.found.get(key);
  }

  /**
   * Where the texts of files lead, as `(text, from) -> module`.
   *
   * @returns {import('./types').Resolve}
   */
  resolverOf(/** @type {World} */ world, /** @type {Map<string, string>} */ texts) {
    const resolve = resolver(world);
    const paths = new Map([...world.files.values()].map((it) => [it.specifier, it.path]));
    const specifiers = new Map([...paths].map(([specifier, file]) => [file, specifier]));
    return (text, from) => {
      const own = specifiers.get(from);
      const to = own === undefined ? undefined : resolve(own, text);
      const found = to === undefined ? undefined : paths.get(to);
      if (found && texts.has(found)) return { resolvedFileName: found, extension: endingOf(found), isExternalLibraryImport: false };
      return this.outside(text, from);
    };
  }

  /** The program of some texts: the last one, where these are its texts. */
  program(/** @type {World} */ world, /** @type {Map<string, string>} */ texts) {
    const isLast = (/** @type {{ texts: Map<string, string> }} */ { texts: known }) => known.size === texts.size && [...texts].every(([name, text]) => known.get(name) === text);
    if (this.last && isLast(this.last)) return this.last.program;
    // Two of them at once may need more memory than there is.
    this.last = null;
    const program = this.made(world, texts);
    this.last = { texts, program };
    return program;
  }

  made(/** @type {World} */ world, /** @type {Map<string, string>} */ texts) {
    const resolve = this.resolverOf(world, texts);
    /** @type {ts.CompilerHost['getSourceFile']} */
    const getSourceFile = (name, target) => {
      const text = texts.get(name);
      if (text !== undefined) return this.source(name, text, target);
      if (!this.libraries.has(name)) this.libraries.set(name, libraryOf(this.host, name, target));
      return this.libraries.get(name);
    };
    /** @type {ts.CompilerHost} */
    const host = { ...this.host, getSourceFile, resolveModuleNames: (names, from) => names.map((text) => resolve(text, from)) };
    const roots = [...texts.keys(), ...this.surroundings.nodeTypes(world.info.externals.map((it) => it.text))];
    return ts.createProgram(roots, this.options, host);
  }
}

/** The errors of some files, as they are reported, with their codes and places. */
function errorsOf(/** @type {ts.Program} */ program, /** @type {string[]} */ names) {
  return names.flatMap((name) => {
    const file = program.getSourceFile(name);
    const all = [...program.getSyntacticDiagnostics(file), ...program.getSemanticDiagnostics(file)];
    return all.map((it) => ({ name, code: it.code, start: it.start, text: `${name} ${it.code} ${ts.flattenDiagnosticMessageText(it.messageText, ' ')}` }));
  });
}

/** Known errors: those of a program, by what they say, and by their codes and places, which move with the edits of a file. */
class KnownErrors {
  constructor(/** @type {FoundError[]} */ errors) {
    this.texts = new Set(errors.map((it) => it.text));
    this.places = new Set(errors.map((it) => `${it.name} ${it.code} ${it.start}`));
  }

  /** Whether an error of the texts with some edits, `{start, end, text}` by file, was there without them. */
  has(/** @type {FoundError} */ error, /** @type {Map<string, Edit[]>} */ edits) {
    return this.texts.has(error.text) || this.places.has(`${error.name} ${error.code} ${placeBefore(error.start || 0, edits.get(error.name) || [])}`);
  }
}

/** Where a place of a text with edits lies in the one without. */
function placeBefore(/** @type {number} */ place, /** @type {Edit[]} */ edits) {
  let moved = 0;
  for (const { start, end, text } of [...edits].sort((a, b) => a.start - b.start)) {
    if (start + moved + text.length > place) break;
    moved += text.length - (end - start);
  }
  return place - moved;
}

// ---- one round

/** A message in words that stay the same where its place moves. */
function keyOf(/** @type {PlacedMessage} */ message) {
  const line = message.lines.line(message.lines.place(message.start).line).trim();
  return `${message.file} ${message.code} ${line.replace(/:[^=(){]*/g, '')}`;
}

/** The edits of one file for its messages: `{key, file, edits, imports}`. Why there is none for a message goes to `notes`. */
function fileEdits(/** @type {FileToEdit} */ { program, file, messages, naming, circles, rejected, notes }) {
  const writer = new TypeWriter(program.getTypeChecker(), file, naming, circles);
  const unknown = new Set(program.getSemanticDiagnostics(file).filter((it) => NO_TYPE.has(it.code)).map((it) => it.start));
  /** @type {Made[]} */
  const made = [];
  for (const message of messages) {
    if (!message.lines) continue;
    const key = keyOf(message);
    if (rejected.has(key)) continue;
    try {
      if (unknown.has(message.start)) throw new NotFixed('the compiler finds no type for it');
      const found = editsFor(writer, message.code, message.start, message.end);
      if (found.edits.length) made.push({ key, file, ...found });
    } catch (error) {
      // An error at one declaration keeps no other one from its type.
      notes.set(key, error instanceof NotFixed ? error.message : `an error of this tool, please report it: ${String(/** @type {Error} */ (error).message).split('\n')[0]}`);
    }
  }
  return made;
}

/**
 * Some edits with the imports that they ask for, by their files.
 *
 * @returns {Map<ts.SourceFile, Edit[]>}
 */
function editsByFile(/** @type {Made[]} */ made) {
  /** @type {Map<ts.SourceFile, Made[]>} */
  const byFile = new Map();
  for (const each of made) byFile.set(each.file, [...(byFile.get(each.file) || []), each]);
  return new Map([...byFile].map(([file, some]) => {
    const imports = new Map(some.flatMap((it) => [...it.imports]));
    return [file, [...importEdits(file, imports), ...some.flatMap((it) => it.edits)]];
  }));
}

/** Texts, some of which are replaced. */
function withTexts(/** @type {Map<string, string>} */ texts, /** @type {Iterable<[string, string]>} */ changed) {
  const made = new Map(texts);
  for (const [name, text] of changed) made.set(name, text);
  return made;
}

/** The texts of the files that some edits change. */
function changedTexts(/** @type {Made[]} */ made) {
  return [...editsByFile(made)].map(([file, edits]) => /** @type {[string, string]} */ ([file.fileName, applied(file.text, edits)]));
}

/** The messages that a type may answer, by the paths of their files: those of some files, or at one place in one, where `within` says so. */
function fixable(/** @type {World} */ world, /** @type {AnalyseOptions['within']} */ within) {
  const found = new Map();
  const isAsked = (/** @type {{ path: string }} */ file, /** @type {Message} */ { start }) => !within || (within.files.has(file.path) && (within.start === undefined || start === within.start));
  for (const message of world.messages) {
    const file = world.files.get(message.specifier || '');
    if (!file || !message.lines || !FIXABLE.has(message.code) || !isAsked(file, message)) continue;
    found.set(file.path, [...(found.get(file.path) || []), message]);
  }
  return found;
}

class Fixer {
  constructor(/** @type {string} */ dir, /** @type {AnalyseOptions} */ options, /** @type {RunContext} */ context) {
    this.dir = dir;
    this.options = options;
    this.context = context;
    this.texts = new Map(options.texts);
    /** @type {Set<string>} */
    this.rejected = new Set();
    /** @type {Map<string, string>} */
    this.notes = new Map();
    this.count = 0;
    this.project = new Project(dir);
  }

  analyse() {
    return analyse(this.dir, { ...this.options, reader: 'typescript', texts: this.texts }, this.context);
  }

  textsOf(/** @type {World} */ world) {
    return new Map(world.info.modules.map((it) => [it.path, it.text]));
  }

  /** The edits that answer messages, by what the compiler infers. */
  edits(/** @type {World} */ world, /** @type {Map<string, string>} */ texts, /** @type {Map<string, Message[]>} */ messages) {
    const program = this.project.program(world, texts);
    const naming = new Naming(world, program, this.project.resolverOf(world, texts), this.project.lookup);
    const circles = new Set(errorsOf(program, [...texts.keys()]).filter((it) => CIRCLE.has(it.code)).map((it) => `${it.name} ${it.start}`));
    const { rejected, notes } = this;
    return [...messages].flatMap(([name, some]) => (
      fileEdits({ program, file: /** @type {ts.SourceFile} */ (program.getSourceFile(name)), messages: some, naming, circles, rejected, notes })));
  }

  /** One round: the edits of all files that bring no error. Answers how many there are. */
  round(/** @type {World} */ world) {
    const messages = fixable(world, this.options.within);
    if (!messages.size) return 0;
    const texts = this.textsOf(world);
    const names = [...texts.keys()];
    const made = this.edits(world, texts, messages);
    const known = new KnownErrors(made.length ? errorsOf(this.project.program(world, texts), names) : []);
    const wrongFiles = (/** @type {Made[]} */ some) => {
      const program = this.project.program(world, withTexts(texts, changedTexts(some)));
      const edits = new Map([...editsByFile(some)].map(([file, each]) => [file.fileName, each]));
      return new Set(errorsOf(program, names).filter((it) => !known.has(it, edits)).map((it) => it.name));
    };
    const clean = new Set(this.cleanPart([], made, wrongFiles));
    const kept = made.filter((it) => clean.has(it));
    for (const each of made) if (!clean.has(each)) this.reject(each);
    for (const [name, text] of changedTexts(kept)) this.texts.set(name, text);
    return kept.length;
  }

  /**
   * Those of some edits that bring no error beside others: first those of files without further errors, else by halves. `wrongFiles(edits)` are the files with one.
   *
   * @returns {Made[]}
   */
  cleanPart(/** @type {Made[]} */ others, /** @type {Made[]} */ made, /** @type {(edits: Made[]) => Set<string>} */ wrongFiles) {
    const wrong = made.length ? wrongFiles([...others, ...made]) : new Set();
    if (!wrong.size) return made;
    if (made.length === 1) return [];
    const isSuspect = (/** @type {Made} */ it) => wrong.has(it.file.fileName);
    const [rest, suspects] = [made.filter((it) => !isSuspect(it)), made.filter(isSuspect)];
    const middle = made.length >> 1;
    const [one, other] = rest.length && suspects.length ? [rest, suspects] : [made.slice(0, middle), made.slice(middle)];
    const first = this.cleanPart(others, one, wrongFiles);
    return [...first, ...this.cleanPart([...others, ...first], other, wrongFiles)];
  }

  reject(/** @type {Made} */ { key }) {
    this.rejected.add(key);
    this.notes.set(key, 'the compiler finds an error with the type that it infers');
  }

  async run() {
    let world = await this.analyse();
    let isRetried = false;
    // A place is another one behind a round.
    const { within } = this.options;
    const rounds = within && within.start !== undefined ? 1 : ROUNDS;
    for (let round = 0; round < rounds; round++) {
      this.context.progress.begin(`writing types, round ${round + 1}`);
      const written = this.round(world);
      // What was given up may be right beside the types of others.
      if (!written && (isRetried || !this.rejected.size)) break;
      isRetried = !written;
      if (isRetried) this.rejected.clear();
      this.count += written;
      if (written) world = await this.analyse();
    }
    return world;
  }
}

/** Writes types into the texts of a folder: the world as it is then, the texts that changed, how many types there are, and why others are not. */
async function fix(/** @type {string} */ dir, /** @type {AnalyseOptions} */ options, /** @type {RunContext} */ context) {
  const fixer = new Fixer(dir, options, context);
  const world = await fixer.run();
  const noteOf = (/** @type {Message} */ message) => (message.lines ? fixer.notes.get(keyOf(message)) : undefined);
  const messages = world.messages.map((it) => (noteOf(it) ? { ...it, info: [`not fixed: ${noteOf(it)}`, ...(it.info || [])] } : it));
  return { world: { ...world, messages }, texts: fixer.texts, count: fixer.count };
}

module.exports = { Project, fix };
