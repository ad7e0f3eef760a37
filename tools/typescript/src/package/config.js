'use strict';
// What a folder says of its packages: names, versions and entry points.

const path = require('path');
const { isDeclarationFile, isInside, isJavaScript, mediaTypeOf, readJson } = require('./files.js');
const { placeAt } = require('../tree/lines.js');
const { NAMES } = require('../cli/targets.js');
const { mayBeAllowed } = require('../messages/codes.js');
const typescript = require('../compiler/typescript.js');

/** @typedef {import('./types').PackageContext} PackageContext */
/** @typedef {import('./types').ReadOptions} ReadOptions */
/** @typedef {import('./types').Config} Config */
/** @typedef {import('./types').Exports} Exports */
/** @typedef {import('./files.js').Files} Files */
/** @typedef {import('./resolve.js').Lookup} Lookup */
/** @typedef {import('./types').FileError} FileError */

const USUAL = ['mod.ts', 'index.ts', 'src/index.ts', 'index.d.ts', 'mod.tsx', 'index.tsx', 'src/mod.ts'];
const CONDITIONS = ['types', 'deno', 'import', 'module', 'node', 'browser', 'default', 'require'];

/** @type {(value: unknown) => value is string} */
const isText = (value) => typeof value === 'string';
/** @type {(value: unknown) => value is Record<string, unknown>} */
const isMap = (value) => value !== null && typeof value === 'object' && !Array.isArray(value);
/** @type {(value: unknown) => value is string[]} */
const areTexts = (value) => Array.isArray(value) && value.every(isText);
const isPathBelow = (/** @type {unknown} */ value) => isText(value) && !path.isAbsolute(value) && !value.split('/').includes('..');
const areExports = (/** @type {unknown} */ value) => isText(value) || value === null || typeof value === 'object';

// The settings of this tool, as the member `nagdrez` of a configuration has them.
/** @type {Record<string, (value: unknown) => boolean>} */
const SETTINGS = { exports: areExports, allow: (/** @type {unknown} */ value) => areTexts(value) && value.every(mayBeAllowed), baseline: isPathBelow };
const areSettings = (/** @type {unknown} */ value) => isMap(value) && Object.keys(value).every((it) => Object.hasOwn(SETTINGS, it) && SETTINGS[it](value[it]));

/**
 * What the members that are read have to be.
 *
 * @type {[name: string, wanted: string, isRight: (value: unknown) => boolean][]}
 */
const WANTED = [
  ['name', 'a text', isText],
  ['version', 'a text', isText],
  ['exports', 'a path or a map', areExports],
  ['imports', 'a map', isMap],
  ['nagdrez', 'a map of `exports` (a path or a map), `allow` (a list of codes) and `baseline` (a path below)', areSettings],
  ['workspace', 'a list of paths', (value) => areTexts(value) || (isMap(value) && (value.members === undefined || areTexts(value.members)))],
  ['workspaces', 'a list of paths', (value) => areTexts(value) || (isMap(value) && (value.packages === undefined || areTexts(value.packages)))],
];

/**
 * A configuration file, which may have comments; null where it is not there.
 *
 * @returns {Config | null}
 */
function readConfig(/** @type {string} */ file, /** @type {Files} */ files, /** @type {FileError[]} */ errors) {
  if (!files.isFile(file)) return null;
  const refusal = files.refusal(file);
  if (refusal) {
    errors.push({ path: file, code: 'refused-file', message: refusal });
    return null;
  }
  const { text, wrong } = files.text(file);
  const { config, error } = readJson(file, text);
  const refuse = (/** @type {number} */ offset, /** @type {string} */ message) => {
    errors.push({ path: file, ...placeAt(text, offset), message });
    return null;
  };
  if (wrong >= 0) return refuse(wrong, 'the file is no UTF-8 from here on');
  if (!config || typeof config !== 'object' || Array.isArray(config) || text.trimStart().startsWith('[')) return refuse(0, 'this is no object');
  if (error) return refuse(error.start || 0, typescript.textOf(error.messageText));
  const unfit = WANTED.find(([name, , isRight]) => config[name] !== undefined && !isRight(config[name]));
  if (!unfit) return config;
  const [key, wanted] = unfit;
  return refuse(Math.max(0, text.indexOf(`"${key}"`)), `\`${key}\` has to be ${wanted}`);
}

/** The paths that pnpm-workspace.yaml lists, a line for each or in brackets. */
function listedByPnpm(/** @type {string} */ folder, /** @type {Files} */ files) {
  const file = path.join(folder, 'pnpm-workspace.yaml');
  if (!files.isFile(file) || files.refusal(file)) return [];
  const text = `${files.text(file).text.replace(/\r\n?/g, '\n')}\n`;
  const [, list] = /^packages:[^\n[]*\n((?:[ \t]*(?:-[^\n]*|#[^\n]*)?\n)*)/m.exec(text) || [];
  const [, inLine] = /^packages:\s*\[([^\]]*)\]/m.exec(text) || [];
  const lines = [...(list || '').matchAll(/^[ \t]*-[ \t]*(["']?)([^"'#\n]+?)\1[ \t]*(?:#.*)?$/gm)].map(([, , path]) => path);
  const parts = (inLine || '').replace(/#.*$/gm, '').split(',').map((it) => it.trim().replace(/^(["'])(.*)\1$/, '$2')).filter(Boolean);
  return [...lines, ...parts];
}

/**
 * The configuration files of a folder in one: of each member that of the first file that has it, and of `imports` each name so. `read` are the files. The members
 * of a workspace that pnpm lists are those of npm's.
 */
function configOf(/** @type {string} */ dir, /** @type {Files} */ files, /** @type {FileError[]} */ errors) {
  /** @type {Record<string, any>} */
  const merged = {};
  merged.read = [];
  for (const name of NAMES) {
    const file = path.join(dir, name);
    const found = readConfig(file, files, errors);
    if (!found) continue;
    merged.read.push(file);
    if (found.imports) merged.imports = { ...found.imports, ...merged.imports };
    for (const key of Object.keys(found)) if (!(key in merged)) merged[key] = found[key];
  }
  const listed = merged.workspace || merged.workspaces ? [] : listedByPnpm(dir, files);
  return listed.length ? { ...merged, workspaces: listed } : merged;
}

const NAMING_ENTRIES = new Set(['exports', 'types', 'typings']);

/** Where the path of an entry point is written in a configuration file, as an offset of its text; undefined where it is not. */
function placeOfPath(/** @type {string} */ file, /** @type {string} */ text, /** @type {string} */ wanted) {
  const { ts } = typescript;
  const source = ts.parseJsonText(file, text);
  const root = source.statements.length ? source.statements[0].expression : null;
  const members = root && ts.isObjectLiteralExpression(root) ? root.properties.flatMap((it) => (ts.isPropertyAssignment(it) ? it : [])) : [];
  const entries = members.filter(({ name }) => ts.isStringLiteral(name) && NAMING_ENTRIES.has(name.text));
  /** @type {(node: ts.Node) => number | undefined} */
  const find = (node) => (ts.isStringLiteral(node) && node.text === wanted ? ts.getTokenPosOfNode(node, source) : ts.forEachChild(node, find));
  return entries.map((it) => find(it.initializer)).find((it) => it !== undefined);
}

/**
 * The path that an entry of `exports` has: a text, or the first condition that leads to one.
 *
 * @returns {string | null}
 */
function pathOf(/** @type {unknown} */ entry) {
  if (typeof entry === 'string') return entry;
  if (Array.isArray(entry)) return entry.map(pathOf).find(Boolean) || null;
  if (!isMap(entry)) return null;
  for (const condition of CONDITIONS) {
    const found = pathOf(entry[condition]);
    if (found) return found;
  }
  return null;
}

function isKeyed(/** @type {object} */ map) {
  return Object.keys(map).some((key) => key.startsWith('.'));
}

/**
 * `exports` as a list of `[key, path]`, as it is written.
 *
 * @returns {[string, string][]}
 */
function writtenExports(/** @type {Exports} */ exports) {
  if (exports === undefined || exports === null) return [];
  /** @type {[string, unknown][]} */
  const entries = isMap(exports) && isKeyed(exports) ? Object.entries(exports) : [['.', exports]];
  return entries.flatMap(([key, entry]) => {
    const found = pathOf(entry);
    return found ? [/** @type {[string, string]} */ ([key, found])] : [];
  });
}

/**
 * The files below a folder, but for those in `node_modules` and behind names that begin with a dot.
 *
 * @returns {string[]}
 */
function filesBelow(/** @type {string} */ dir, /** @type {Files} */ files) {
  const names = files.names(dir).filter(({ name }) => name !== 'node_modules' && !name.startsWith('.'));
  return names.flatMap(({ name, kind, isLink }) => (kind === 'folder' && !isLink ? filesBelow(path.join(dir, name), files) : path.join(dir, name)));
}

/** The sources of a folder by the files that the compiler writes for them. */
function builtFiles(/** @type {string} */ dir, /** @type {Pick<PackageContext, 'projects' | 'answers'>} */ { projects, answers }) {
  return new Map(answers.of(`built files of ${dir}`, () => projects.builtFiles(dir)));
}

/**
 * An entry with `*` in its path stands for each file that fits, and where there is none, for each that the compiler would write.
 *
 * @returns {[string, string][]}
 */
function expanded(/** @type {string} */ dir, /** @type {[key: string, path: string]} */ [key, written], /** @type {PackageContext} */ context) {
  if (!written.includes('*')) return [[key, written]];
  const [before, after] = written.replace(/^\.\//, '').split('*');
  const isFitting = (/** @type {string} */ it) => it.startsWith(before) && it.endsWith(after) && it.length > before.length + after.length && mediaTypeOf(it) !== 'Unknown';
  const fitting = (/** @type {string[]} */ files) => files.map((it) => path.relative(dir, it)).filter(isFitting).sort();
  const found = fitting(filesBelow(dir, context.files));
  const all = found.length ? found : fitting([...builtFiles(dir, context).keys()]);
  return all.map((it) => /** @type {[string, string]} */ ([key.replace('*', () => it.slice(before.length, it.length - after.length)), `./${it}`]));
}

const SOURCES = 'name the sources with `--exports`, as `--exports ./src/index.ts`';
/** @typedef {import('./types').EntryContext} EntryContext */
/** @typedef {import('./types').ConfiguredPackage} ConfiguredPackage */
/** @typedef {import('./types').Wrong} Wrong */

/** @type {Wrong} */
const ABSENT = { message: 'is not there', more: { hint: `give the path of a file that is there, or ${SOURCES}` } };
/** @type {Wrong} */
const NO_FILE = { message: 'fits no file', more: { level: 'Warning' } };
/** @type {Wrong} */
const NO_MODULE = { message: 'is no module, and is passed over', more: { level: 'Warning' } };
/** @type {Wrong} */
const BUILT = { message: 'is a built file, and nothing of src/ is read', more: { code: 'built-entry-point', level: 'Warning', hint: SOURCES } };

/**
 * What is wrong with an entry point, where its path is written.
 *
 * @returns {FileError}
 */
function faultOf(/** @type {string} */ text, /** @type {Wrong} */ wrong, /** @type {{ dir: string } & EntryContext} */ { dir, config, given, isQuiet, files }) {
  const fault = { path: dir, code: 'no-entry-point', message: `the entry point ${text} ${wrong.message}`, ...wrong.more };
  for (const file of (given === undefined && !isQuiet && config.read) || []) {
    const source = files.text(file).text;
    const offset = placeOfPath(file, source, text);
    if (offset !== undefined) return { ...fault, path: file, ...placeAt(source, offset), length: text.length + 2 };
  }
  return fault;
}

// The folders that builds write to.
const BUILDS = new Set(['dist', 'build', 'lib', 'out', 'output', 'es', 'esm', 'cjs', 'types', 'typings', 'umd', 'bundle']);
const BUILT_FILE = /(?:\.d)?\.[cm]?[jt]s$/;

/** The source in `src` that a file of a build has the name of; null where none has. A build may have folders of its own above, as `dist/esm`. */
function namesake(/** @type {string} */ dir, /** @type {string} */ wanted, /** @type {Files} */ files) {
  const parts = path.relative(dir, wanted).split(path.sep);
  const stems = parts.slice(1).map((_, at) => path.join(dir, 'src', ...parts.slice(at + 1)).replace(BUILT_FILE, ''));
  const names = stems.flatMap((it) => ['.ts', '.tsx', '.mts', '.cts'].map((ending) => it + ending));
  return names.find((it) => files.isFile(it)) || null;
}

/** Whether a file is one of a build: it lies in a folder for builds, or is not there, and no source stands in its place. */
function isBuilt(/** @type {string} */ dir, /** @type {string} */ wanted, /** @type {Lookup} */ lookup) {
  const [first, ...rest] = path.relative(dir, wanted).split(path.sep);
  const found = lookup.file(wanted);
  const isDeclared = !found || isDeclarationFile(mediaTypeOf(found)) || isJavaScript(mediaTypeOf(found));
  return rest.length > 0 && BUILDS.has(first) && BUILT_FILE.test(wanted) && isDeclared;
}

/**
 * The sources that stand for entry points of which all are files of a build, by their paths: those of the same names in `src`, and for a whole package in one
 * file `src/index.ts`. Null where they are none, or some have no source.
 */
function sourcesOfBuild(/** @type {string} */ dir, /** @type {[key: string, path: string][]} */ entries, /** @type {Lookup} */ lookup) {
  const { files } = lookup;
  const paths = entries.map(([, text]) => path.resolve(dir, text)).filter((it) => BUILT_FILE.test(it));
  if (!paths.length || !paths.every((it) => isBuilt(dir, it, lookup))) return null;
  const whole = ['index.ts', 'index.tsx', 'index.mts'].map((name) => path.join(dir, 'src', name)).find((it) => files.isFile(it));
  /** @type {Map<string, string>} */
  const found = new Map();
  for (const it of paths) {
    const source = namesake(dir, it, files) || (new Set(paths).size === 1 && whole);
    if (source) found.set(it, source);
  }
  return paths.every((it) => found.has(it)) ? found : null;
}

/** The written entry points that are modules, as `[key, path]`, what is wrong with the others, and which are taken in place of those that are written. */
function modulesOf(/** @type {string} */ dir, /** @type {[key: string, path: string][]} */ written, /** @type {EntryContext} */ context) {
  const { given, lookup, errors } = context;
  /** @type {[[string, string][], FileError[], import('./types').Taken[]]} */
  const [found, wrong, taken] = [[], [], []];
  const refuse = (/** @type {string} */ text, /** @type {Wrong} */ how) => wrong.push(faultOf(text, how, { dir, ...context }));
  const each = written.map((it) => /** @type {const} */ ([it, expanded(dir, it, context)]));
  for (const [[, text], some] of each) if (!some.length) refuse(text, NO_FILE);
  const entries = each.flatMap(([, some]) => some);
  const isOwn = given === undefined && entries.length > 0;
  const [build, built] = isOwn ? [sourcesOfBuild(dir, entries, lookup), builtFiles(dir, context)] : [null, new Map()];
  for (const [key, text] of entries) {
    const wanted = path.resolve(dir, text);
    const source = isInside(dir, wanted) ? built.get(wanted) || (build && build.get(wanted)) || null : null;
    const file = source || lookup.file(wanted);
    if (source) taken.push({ written: text, dir, file: source });
    const isOutside = path.isAbsolute(text) || !isInside(dir, wanted);
    if (isOutside) errors.push({ path: dir, message: `the entry point ${text} lies outside of the package` });
    else if (!file) refuse(text, ABSENT);
    else if (mediaTypeOf(file) === 'Unknown') refuse(text, NO_MODULE);
    else if (!file.endsWith('.json') || given !== undefined) found.push([key, file]);
    if (file && !source && isUnread(dir, wanted, context)) refuse(text, BUILT);
  }
  return { found, wrong, taken };
}

/** Whether an entry point is a declaration file of a build beside sources in `src`. */
function isUnread(/** @type {string} */ dir, /** @type {string} */ wanted, /** @type {EntryContext} */ { files, lookup, given }) {
  if (given !== undefined || !isInside(dir, wanted) || !isBuilt(dir, wanted, lookup)) return false;
  return filesBelow(path.join(dir, 'src'), files).some((it) => ['TypeScript', 'Tsx', 'Mts', 'Cts'].includes(mediaTypeOf(it)));
}

/** The entry point of a package in whose configuration none is there, or null. */
function usualEntry(/** @type {string} */ dir, /** @type {Config} */ config, /** @type {Lookup} */ lookup) {
  const written = [config.module, config.main].filter(isText);
  const usual = USUAL.find((it) => lookup.files.isFile(path.join(dir, it))) || written.find((it) => lookup.file(path.join(dir, it)));
  return usual ? lookup.file(path.join(dir, usual)) : null;
}

/**
 * The entry points of a package: `[key, path]`. What is wrong with some of them goes to `faults` where others are there, else to `errors`.
 *
 * @returns {[string, string][]}
 */
function entryPoints(/** @type {string} */ dir, /** @type {Config} */ config, /** @type {Exports} */ given, /** @type {PackageContext} */ context) {
  const { lookup, errors, faults } = context;
  const written = writtenExports(given === undefined ? config.exports : given);
  const types = config.types || config.typings;
  if (written.length === 0 && typeof types === 'string') written.push(['.', types]);
  const { found, wrong, taken } = modulesOf(dir, written, { ...context, config, given });
  if (found.length) {
    faults.push(...wrong);
    context.taken.push(...taken);
    return found;
  }
  const usual = given === undefined || wrong.length === 0 ? usualEntry(dir, config, lookup) : null;
  if (usual) {
    context.taken.push(...written.slice(0, 1).map(([, text]) => ({ written: text, dir, file: usual })));
    return [['.', usual]];
  }
  errors.push(...wrong);
  const isTold = wrong.length > 0 || errors.some((it) => it.path === dir);
  if (!isTold) errors.push({ path: dir, message: 'no entry point: neither `exports`, nor mod.ts, index.ts or src/index.ts' });
  return [];
}

/**
 * A pattern for each choice of its braces, as `a/b` and `a/c` of `a/{b,c}`.
 *
 * @returns {string[]}
 */
function withoutBraces(/** @type {string} */ pattern) {
  const [all, inside] = /\{([^{}]*)\}/.exec(pattern) || [];
  return all === undefined ? [pattern] : inside.split(',').flatMap((it) => withoutBraces(pattern.replace(all, () => it)));
}

/** The folders below another one that have a configuration and fit one of some patterns, as the compiler matches paths. */
function foldersThatFit(/** @type {string} */ dir, /** @type {string[]} */ patterns, /** @type {string[]} */ without, /** @type {Pick<PackageContext, 'files' | 'answers'>} */ { files, answers }) {
  const includes = patterns.flatMap((it) => NAMES.map((name) => `${it}/${name}`));
  const excludes = ['**/node_modules', ...without];
  const found = answers.of(`files of ${dir} by ${includes.join()} and not ${excludes.join()}`, () => files.matching(dir, { endings: ['.json', '.jsonc'], excludes, includes }));
  return [...new Set(found.map((file) => path.dirname(path.resolve(file))))].filter((it) => it !== dir).sort();
}

const isPattern = (/** @type {string} */ text) => /[*?]/.test(text);

/** The folders of a workspace's members, of deno's (`workspace`) and of npm's (`workspaces`), in which a path behind `!` is left out. A pattern that fits nothing is a fault. */
function membersOf(/** @type {string} */ dir, /** @type {Config} */ config, /** @type {Pick<PackageContext, 'files' | 'answers' | 'faults'>} */ context) {
  const listed = (/** @type {unknown} */ value, /** @type {string} */ name) => /** @type {string[]} */ (Array.isArray(value) ? value : (isMap(value) && value[name]) || []);
  const texts = [...listed(config.workspace, 'members'), ...listed(config.workspaces, 'packages')];
  const plain = (/** @type {string[]} */ list) => list.flatMap(withoutBraces).map((it) => it.replace(/^\.\//, '').replace(/\/+$/, ''));
  const without = plain(texts.filter((it) => it.startsWith('!')).map((it) => it.slice(1)));
  const left = new Set(without.filter((it) => !isPattern(it)).map((it) => path.resolve(dir, it)));
  const folders = texts.filter((it) => !it.startsWith('!')).flatMap((text) => {
    const all = plain([text]);
    const patterns = all.filter(isPattern);
    const found = patterns.length ? foldersThatFit(dir, patterns, without, context) : [];
    if (patterns.length && !found.length) context.faults.push({ path: dir, code: 'no-entry-point', level: 'Warning', message: `${text} of the workspace fits no folder with a package` });
    return [...all.filter((it) => !isPattern(it)).map((it) => path.resolve(dir, it)), ...found];
  });
  return [...new Set(folders)].filter((it) => !left.has(it));
}

/**
 * The map of imports of a folder: for each name the path of a file, which may have a `*`, or null where it leads elsewhere. A key that ends with `/` stands
 * for what begins so.
 */
function importsOf(/** @type {string} */ dir, /** @type {Config} */ config) {
  /** @type {Record<string, string | null>} */
  const made = {};
  for (const [key, entry] of Object.entries(config.imports || {})) {
    const target = pathOf(entry);
    if (target) made[key] = /^\.{1,2}\//.test(target) ? path.resolve(dir, target) + (target.endsWith('/') ? path.sep : '') : null;
  }
  return made;
}

const DEPENDENCIES = ['dependencies', 'devDependencies', 'peerDependencies', 'optionalDependencies'];

/** The names of the packages that a configuration depends on; those that have their types in a package of their own too. */
function dependenciesOf(/** @type {Config} */ config, kinds = DEPENDENCIES) {
  const names = kinds.flatMap((it) => {
    const listed = config[it];
    return isMap(listed) ? Object.keys(listed) : [];
  });
  const typed = names.filter((it) => it.startsWith('@types/')).map((it) => it.slice('@types/'.length));
  return [...names, ...typed, ...typed.map((it) => it.replace(/^(.+)__/, '@$1/'))];
}

// Those that the users of a package have too.
const NEEDED = DEPENDENCIES.filter((it) => it !== 'devDependencies');

/** The names of a map of imports that lead out of the folder. */
function mappedOut(/** @type {Config} */ config) {
  return Object.entries(importsOf('/', config)).filter(([, target]) => target === null).map(([name]) => name.replace(/\/$/, ''));
}

/** The range of versions that a configuration names for each package outside, by the name that sources import. */
function rangesOf(/** @type {Config} */ config) {
  /** @type {Record<string, string>} */
  const made = {};
  for (const listed of DEPENDENCIES.map((it) => config[it])) {
    for (const [name, range] of isMap(listed) ? Object.entries(listed) : []) if (isText(range)) made[name] = range;
  }
  for (const [name, entry] of Object.entries(config.imports || {})) if (isText(entry) && !/^\.{0,2}\//.test(entry)) made[name.replace(/\/$/, '')] = entry;
  return made;
}

const VERSION = /^\d+\.\d+\.\d+(-[0-9A-Za-z.-]+)?(\+[0-9A-Za-z.-]+)?$/;

/** The folders of a folder's packages: itself where it has entry points, and the members of its workspace, which have to lie within it. */
function foldersOf(/** @type {string} */ dir, /** @type {Config} */ config, /** @type {ReadOptions} */ options, /** @type {PackageContext} */ context) {
  const { files, errors, faults } = context;
  const members = options.members || (options.exports === undefined ? membersOf(dir, config, context) : []);
  const isThere = (/** @type {string} */ folder) => files.kind(folder) !== 'none';
  for (const folder of members) {
    if (!isInside(dir, folder)) errors.push({ path: folder, code: 'no-entry-point', message: 'this member of the workspace lies outside of the folder' });
    else if (!isThere(folder)) {
      /** @type {FileError} */
      const absence = { path: folder, code: 'no-entry-point', message: 'this member of the workspace is not there' };
      if (config.workspace) errors.push(absence);
      else faults.push({ ...absence, level: 'Warning' });
    }
  }
  const present = members.filter(isThere);
  return members.length && config.exports === undefined ? present : [...present, dir];
}

/** Whether a member of npm's workspace, which may be anything, has no module to look at. */
function isNoPackage(/** @type {ConfiguredPackage} */ { dir, exports }, /** @type {string} */ root, /** @type {Config} */ config, /** @type {PackageContext} */ { errors, faults }) {
  if (exports.length || dir === root || !config.workspaces) return false;
  const own = errors.filter((it) => it.code === 'no-entry-point' || it.path === dir);
  for (const it of own.filter((each) => isInside(root, each.path) && (each.path === dir || path.dirname(each.path) === dir))) {
    errors.splice(errors.indexOf(it), 1);
    faults.push({ ...it, code: 'no-entry-point', level: 'Warning', message: `${it.message}: this member of the workspace is passed over`, hint: null });
  }
  return true;
}

/**
 * The settings of a package. Of those of strangers none counts.
 *
 * @returns {{ exports?: Exports, allow?: string[], baseline?: string }}
 */
function settingsOf(/** @type {Config} */ written, /** @type {Pick<ReadOptions, 'noIgnore'>} */ { noIgnore }) {
  return (!noIgnore && written.nagdrez) || {};
}

/** The configuration of a package with the entry points of its settings. */
function ownOf(/** @type {Config} */ written, /** @type {Pick<ReadOptions, 'noIgnore'>} */ options) {
  const { exports } = settingsOf(written, options);
  return exports === undefined ? written : { ...written, exports };
}

/**
 * A package as its configuration says it, but for its entry points. `top` is the folder that was named.
 *
 * @param {string} folder
 * @param {Config} written
 * @param {{ dir: string, config: Config }} top
 * @param {Pick<ReadOptions, 'name' | 'version'>} given what is given in place of what is written
 * @param {Pick<ReadOptions, 'noIgnore'>} options
 */
function described(folder, written, top, given, options) {
  const { allow = [], baseline } = settingsOf(written, options);
  const version = given.version || written.version;
  const isVersioned = version !== undefined && VERSION.test(version);
  return {
    name: given.name || written.name || path.basename(folder),
    version: version !== undefined && isVersioned ? version : '0.0.0',
    isVersioned,
    ranges: { ...rangesOf(top.config), ...rangesOf(written) },
    dir: folder,
    allow,
    baseline: baseline === undefined ? null : path.resolve(folder, baseline),
    imports: { ...importsOf(top.dir, top.config), ...importsOf(folder, written) },
    dependencies: new Set([...dependenciesOf(top.config), ...dependenciesOf(written)]),
    needed: [...new Set([...mappedOut(top.config), ...mappedOut(written), ...dependenciesOf(written, NEEDED)])],
  };
}

/**
 * The packages of a folder. `context` has what looks files up, and lists that are filled: what keeps a package from being read (`errors`), what is wrong with
 * one that is read (`faults`), and which entry points are taken in place of those that are written (`taken`). Where it `isQuiet`, no places are looked for.
 *
 * @returns {ConfiguredPackage[]}
 */
function packagesOf(/** @type {string} */ dir, /** @type {ReadOptions} */ options, /** @type {PackageContext} */ context) {
  const { files, errors } = context;
  const config = configOf(dir, files, errors);
  const folders = errors.length ? [] : foldersOf(dir, config, options, context);
  if (errors.length) return [];
  const found = folders.map((folder) => {
    const written = folder === dir ? config : configOf(folder, files, errors);
    const given = folder === dir ? options : {};
    return { ...described(folder, written, { dir, config }, given, options), exports: entryPoints(folder, ownOf(written, options), given.exports, context) };
  });
  return found.filter((it) => !isNoPackage(it, dir, config, context));
}

module.exports = { configOf, described, membersOf, packagesOf, settingsOf };
