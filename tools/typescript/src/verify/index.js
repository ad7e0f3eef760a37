'use strict';
// Has TypeScript's compiler check the skeletons beside the sources: what it finds wrong in the skeletons alone is reported, and each public declaration of which
// it declares another type, module by module.
const { isNpm } = require('../cli/installed.js');
const { shownName } = require('../program/answer.js');
const { programOf, resolverOf, declarationName, emitted, surfaceOf, compared, errorsIn, normalise, textOf } = require('./surface.js');
const { Lines } = require('../tree/lines.js');
const { printed } = require('../skeleton/write.js');
const { hasModifier, modifiersOf } = require('../compiler/modifiers.js');
const { whole: ts } = require('../compiler/typescript.js');
const { NEWER } = require('../tree/from-typescript/converter.js');
const { viewOf } = require('./users-view.js');
const { told: toldWay, ways } = require('../skeleton/reasons.js');

/** @typedef {import('../program/types').World} World */
/** @typedef {import('./types').VerifyView} VerifyView */
/** @typedef {import('../messages/types').Message} Message */
/** @typedef {import('../program/types').SourceFile} SourceFile */
/** @typedef {import('./types').NamedModule} NamedModule */
/** @typedef {import('../package/types').Module} Module */
/** @typedef {import('./surface.js').Surface} Surface */
/** @typedef {import('./types').SurfaceDifference} SurfaceDifference */
/** @typedef {import('./types').FoundError} FoundError */

/** What is to be done about errors that come of a reference which the skeletons do not answer. */
const LOST = new Set([2304, 2305, 2307, 2339, 2503, 2552, 2614, 2694, 2724, 4023, 4033]);
// The npm package has no pages.
const more = (/** @type {string} */ text) => (isNpm ? '' : `; docs/limits.md ${text} where the rules part from TypeScript`);
const HINT = `refer to what is meant by a name of its own${more('lists')}`;
const TYPE_HINT = `write the type${more('says what to write')}`;
const LONGEST = 200;
const { SyntaxKind: K } = ts;
/** @type {Set<ts.SyntaxKind | undefined>} */
const SHOWN = new Set([K.StaticKeyword, K.AbstractKeyword, K.ReadonlyKeyword, K.ProtectedKeyword, NEWER.AccessorKeyword]);

/** The compiler's view of the modules of a folder, as sources or as skeletons. `texts` are by their paths; declarations are made of those that are `answered`. */
class Side {
  constructor(/** @type {World} */ world, /** @type {Map<string, string>} */ texts, /** @type {Set<string>} */ answered) {
    this.world = world;
    this.texts = texts;
    this.answered = answered;
    this.program = programOf(texts, resolverOf(world, texts));
    /** @type {Set<string>} */
    this.declared = new Set();
  }

  /** What the compiler declares for all that these entry points lead to. */
  surface(/** @type {string[]} */ entries) {
    const made = emitted(this.program, this.texts, (name) => this.answered.has(name));
    this.declared = new Set(made.keys());
    for (const [name, text] of this.texts) if (name.endsWith('.json')) made.set(name, text);
    return surfaceOf(programOf(made, resolverOf(this.world, made)), made, entries.map(declarationName));
  }

  file(/** @type {string} */ name) {
    return /** @type {ts.SourceFile} */ (this.program.getSourceFile(name));
  }
}

/** The statement of a file, at its top, that a place lies in, and what it declares there. */
function declarationAt(/** @type {ts.SourceFile} */ file, /** @type {number} */ offset) {
  const statement = file.statements.find((each) => each.getStart(file) <= offset && offset < each.end);
  if (!statement) return null;
  const named = nameOf(partsOfStatement(statement).find((each) => offset < each.end) || statement);
  if (named) return named.getText(file);
  return statement.getText(file).startsWith('export default') ? 'default' : null;
}

/** The name of a declaration; undefined of what has none. */
const nameOf = (/** @type {ts.Node} */ node) => /** @type {{ name?: ts.Node }} */ (node).name;

/**
 * What a statement declares: of one with variables each of them.
 *
 * @param {ts.Statement} statement
 * @returns {ts.Node[]}
 */
const partsOfStatement = (statement) => (ts.isVariableStatement(statement) ? [...statement.declarationList.declarations] : [statement]);

/** Where a name is declared at the top of a file: the start and the end of the name, or of the first statement where it is not found. */
function placeOf(/** @type {ts.SourceFile} */ file, /** @type {string} */ name) {
  const all = file.statements.flatMap(partsOfStatement);
  const isDefault = (/** @type {ts.Node} */ each) => (ts.isExportAssignment(each) && !each.isExportEquals) || hasModifier(each, K.DefaultKeyword);
  const named = all.find((each) => {
    const own = nameOf(each);
    return own && own.getText(file) === name;
  });
  const found = named || (name === 'default' ? all.find(isDefault) : undefined);
  if (!found) return { start: 0, end: 0 };
  const own = nameOf(found);
  const start = (own || found).getStart(file);
  return { start, end: own ? own.end : Math.min(found.end, start + 'export default'.length) };
}

/** The way to a declaration, as lines that say more. */
function wayTo(/** @type {NamedModule} */ module, /** @type {string | null} */ name, /** @type {Pick<VerifyView, 'world' | 'found'>} */ { world, found }) {
  const way = name ? toldWay(world, found, `${module.specifier}\n${name}`) : '';
  if (way) return [`the way to it: ${way}`];
  return world.info.entryPoints.includes(module.specifier) ? [`${module.name} is an entry point`] : [];
}

/**
 * One error of a skeleton as a message, with the way that it comes from.
 *
 * @returns {Message}
 */
function errorMessage(/** @type {FoundError} */ error, /** @type {NamedModule} */ module, /** @type {VerifyView} */ view) {
  const name = declarationAt(view.skeletons.file(module.path), error.start);
  const info = [`TypeScript's compiler finds this in the skeleton of ${module.name}, and not in its source`, ...wayTo(module, name, view)];
  return {
    level: 'Error', code: `typescript-${error.code}`, message: error.text.split(`${view.world.dir}/`).join(''), info, hint: LOST.has(error.code) ? HINT : null,
    file: `${shownName(module.path, view.cwd)} (skeleton)`, lines: new Lines(module.text), start: error.start, end: error.end,
  };
}

/**
 * What the compiler finds wrong in the skeletons and not in the sources, each once.
 *
 * @returns {Message[]}
 */
function errorMessages(/** @type {VerifyView} */ view) {
  return view.modules.flatMap((module) => {
    const errors = errorsIn(view.skeletons.program, module.path);
    const known = new Set((errors.length ? errorsIn(view.sources.program, module.path) : []).map((each) => `${each.code} ${each.text}`));
    const others = errors.filter((each) => !known.has(`${each.code} ${each.text}`));
    return [...new Map(others.map((each) => [`${each.code} ${each.text} ${each.start}`, each])).values()].map((each) => errorMessage(each, module, view));
  });
}

/** The path of a module without its ending, as the key of a declaration begins. */
function stemOf(/** @type {string} */ file) {
  return declarationName(file).replace(/\.d\.[cm]?ts$/, '');
}

/** A text as it is shown: nothing of none, of a long one the beginning. */
function cut(/** @type {string} */ text) {
  const made = text.trim().replace(/^[;,]\s*/, '');
  return !made ? 'nothing' : made.length > LONGEST ? `${made.slice(0, LONGEST)} ..` : made;
}

/** What a member or a variable is declared as, without its name: its whole type, or its signature. */
function typeText(/** @type {ts.Node} */ node) {
  const { type, initializer } = /** @type {{ type?: ts.TypeNode, initializer?: ts.Expression }} */ (node);
  if (type && !ts.isFunctionLike(node)) return normalise(textOf(type));
  if (initializer) return normalise(textOf(initializer));
  const text = normalise(textOf(node));
  const own = nameOf(node);
  const name = own ? own.getText() : '';
  return name && text.includes(name) ? text.slice(text.indexOf(name) + name.length).replace(/^\??:\s*/, '') : text;
}

/** @typedef {{ words: string, texts: string[] }} Member */

/** The members of a declaration by their names, each with its words and what it is declared as; null of a declaration without members. */
function membersOf(/** @type {ts.Node} */ node) {
  const { members } = /** @type {{ members?: readonly (ts.Node & { questionToken?: ts.Node })[] }} */ (node);
  if (!members) return null;
  /** @type {Map<string, Member>} */
  const found = new Map();
  for (const it of members) {
    const words = modifiersOf(it).filter((each) => SHOWN.has(each.kind)).map((each) => `${each.getText()} `).join('');
    const own = nameOf(it);
    const name = own ? own.getText() : ts.isConstructorDeclaration(it) ? 'constructor' : '';
    const key = words.includes('static ') ? `static ${name}` : name;
    const before = found.get(key) || { words: '', texts: [] };
    found.set(key, { words: `${words}${name}${it.questionToken ? '?' : ''}`, texts: [...before.texts, typeText(it)] });
  }
  return found;
}

/**
 * Where one declaration of a name differs from another: `[member, before, after]`, without a member where the whole differs.
 *
 * @returns {string[][]}
 */
function details(/** @type {ts.Node[]} */ [one, ...more], /** @type {ts.Node[]} */ [other, ...others]) {
  if (!one || !other || more.length || others.length || one.kind !== other.kind) return [];
  const [before, after] = [membersOf(one), membersOf(other)];
  if (!before || !after) return ts.isVariableDeclaration(one) || ts.isTypeAliasDeclaration(one) ? [['', typeText(one), typeText(other)]] : [];
  const whole = (/** @type {Member | undefined} */ it) => (it ? [it.words, it.texts.join('; ')].filter(Boolean).join(': ') : '');
  const names = [...new Set([...before.keys(), ...after.keys()])].filter((name) => whole(before.get(name)) !== whole(after.get(name)));
  return names.map((name) => {
    const [was, is] = [before.get(name), after.get(name)];
    return was && is && was.words === is.words ? [name, was.texts.join('; '), is.texts.join('; ')] : [name, whole(was), whole(is)];
  });
}

/** How a declaration differs, in words: the name of each member that does, with both whole types. */
function differenceTexts(/** @type {SurfaceDifference} */ { key, missing, added, isLost, isNew }, /** @type {string} */ name, /** @type {Surface[]} */ [one, other]) {
  if (isLost) return [`${name}: declared in the source, and not in the skeletons`];
  if (isNew) return [`${name}: declared in the skeletons, and not in the source`];
  const found = details(one.nodes.get(key) || [], other.nodes.get(key) || []);
  const all = found.length ? found : [['', missing.join('; '), added.join('; ')]];
  return all.map(([member, before, after]) => `${member ? `${name}.${member}` : name}: ${cut(before)} in the source, ${cut(after)} in the skeleton`);
}

/**
 * A declaration of another type as a message.
 *
 * @returns {Message[]}
 */
function differenceMessagesOf(/** @type {SurfaceDifference} */ found, /** @type {VerifyView} */ view, /** @type {Surface[]} */ surfaces) {
  const { key } = found;
  const [stem, names] = [key.slice(0, key.lastIndexOf('#')), key.slice(key.lastIndexOf('#') + 1)];
  const file = /** @type {SourceFile} */ ([...view.world.files.values()].find((each) => stemOf(each.path) === stem));
  const [first] = /^"[^"]*"|^[^.]*/.exec(names) || [''];
  const place = { file: shownName(file.path, view.cwd), lines: file.lines, ...placeOf(view.sources.file(file.path), first) };
  const name = names === '*' ? 'the exports' : names;
  const info = ["TypeScript's compiler declares this otherwise for the skeleton than for the source", ...(names === '*' ? [] : wayTo(file, first, view))];
  return differenceTexts(found, name, surfaces).map((message) => ({ level: 'Error', code: 'declared-otherwise', message, info, hint: TYPE_HINT, ...place }));
}

/**
 * A skeleton of which the compiler makes no declarations, though it does of the source, as a message.
 *
 * @returns {Message}
 */
function undeclaredMessage(/** @type {NamedModule} */ module, /** @type {VerifyView} */ { skeletons, cwd }) {
  const [first] = skeletons.program.getDeclarationDiagnostics(skeletons.file(module.path));
  const why = first ? `: ${ts.flattenDiagnosticMessageText(first.messageText, ' ')}` : '';
  const [start, length] = first ? [first.start, first.length] : [0, 0];
  return {
    level: 'Error', code: 'declared-otherwise', message: `TypeScript's compiler makes no declarations of the skeleton${why}`, info: [], hint: HINT,
    file: `${shownName(module.path, cwd)} (skeleton)`, lines: new Lines(module.text), start, end: start + length,
  };
}

const hasItems = (/** @type {Module} */ { tree }) => Boolean(tree.program && tree.program.Script && (tree.program.Script.body || []).length);

/** The file of a module. */
const fileOf = (/** @type {World} */ world, /** @type {{ specifier: string }} */ { specifier }) => /** @type {SourceFile} */ (world.files.get(specifier));

/**
 * A script that is an entry point, as a message: what it declares is declared for all, and no module exports it.
 *
 * @returns {Message}
 */
function scriptMessage(/** @type {Module} */ module, /** @type {VerifyView} */ { world, cwd }) {
  const { lines } = fileOf(world, module);
  return {
    level: 'Error', code: 'declared-otherwise', message: 'this file is no module, and what it declares stands in no skeleton', info: [],
    hint: 'export what is public',
    file: shownName(module.path, cwd), lines, start: 0, end: 0,
  };
}

/** Whether a name that the compiler declares for a skeleton alone is the same in the source: its declarations lack a `var` of a block, though they export it. */
function isInSource(/** @type {string} */ key, /** @type {VerifyView} */ { modules, sources, skeletons }) {
  const [stem, name] = [key.slice(0, key.lastIndexOf('#')), key.slice(key.lastIndexOf('#') + 1)];
  const module = modules.find((each) => stemOf(each.path) === stem);
  const [own, shown] = module ? [sources, skeletons].map(({ program }) => viewOf(program, module.path).get(name)) : [];
  return own !== undefined && own === shown;
}

/** The names that a file declares with `typeof` in their types, or in what they are made of. */
function queryingNames(/** @type {ts.SourceFile} */ file) {
  /** @type {(node: ts.Node) => boolean} */
  const asks = (node) => ts.isTypeQueryNode(node) || Boolean(ts.forEachChild(node, asks));
  return file.statements.flatMap(partsOfStatement).filter(asks).flatMap((each) => nameOf(each) || []).map((it) => it.getText(file));
}

/**
 * Where `typeof` of a skeleton stands for another type than in what the compiler declares for the source, as messages.
 *
 * @param {NamedModule} module
 * @param {VerifyView} view
 * @param {Surface[]} surfaces
 * @param {Set<string>} told
 * @returns {Message[]}
 */
function queryMessages(module, { world, cwd, sources, skeletons, found }, [{ program }], told) {
  const names = queryingNames(skeletons.file(module.path));
  if (!names.length || !program.getSourceFile(declarationName(module.path))) return [];
  const [own, shown] = [sources, skeletons].map((side) => viewOf(side.program, module.path));
  const wanted = viewOf(program, declarationName(module.path));
  const isApart = (/** @type {string} */ name) => wanted.has(name) && ![wanted, own].some((view) => view.get(name) === shown.get(name));
  const differ = names.filter((name) => isApart(name) && !told.has(`${stemOf(module.path)}#${name}`));
  const file = fileOf(world, module);
  const typed = (text = '') => cut(text.replace(/^(type|value|function) /, ''));
  return [...new Set(differ)].map((name) => ({
    level: 'Error', code: 'declared-otherwise', message: `${name}: ${typed(wanted.get(name))} in the source, ${typed(shown.get(name))} in the skeleton`,
    hint: TYPE_HINT, info: ['`typeof` stands for another type in the skeleton', ...wayTo(module, name, { world, found })],
    file: shownName(module.path, cwd), lines: file.lines, ...placeOf(sources.file(module.path), name),
  }));
}

/**
 * The public declarations of which the compiler declares another type, in modules of which it declares something. `wrong` are the files of the errors.
 *
 * @returns {Message[]}
 */
function differenceMessages(/** @type {VerifyView} */ view, /** @type {Set<string | undefined>} */ wrong) {
  const { world, sources, skeletons } = view;
  const entries = world.info.entryPoints.filter((it) => world.skeletons.has(it)).map((specifier) => fileOf(world, { specifier }).path);
  const surfaces = [sources.surface(entries), skeletons.surface(entries)];
  const found = compared(surfaces[0], surfaces[1]);
  const isDeclared = (/** @type {Side} */ side, /** @type {NamedModule} */ module) => side.declared.has(declarationName(module.path));
  const without = view.modules.filter((module) => !isDeclared(sources, module) || !isDeclared(skeletons, module));
  const scripts = world.info.modules.filter((module) => entries.includes(module.path) && module.tree.program && module.tree.program.Script);
  const stems = new Set([...without, ...scripts].map((module) => stemOf(module.path)));
  const silent = without.filter((module) => isDeclared(sources, module) && !wrong.has(`${shownName(module.path, view.cwd)} (skeleton)`));
  const undeclared = silent.map((module) => undeclaredMessage(module, view));
  const differing = found.filter((it) => !stems.has(it.key.slice(0, it.key.lastIndexOf('#'))) && !(it.isNew && isInSource(it.key, view)));
  const emptied = scripts.filter(hasItems).map((module) => scriptMessage(module, view));
  const told = new Set(differing.map(({ key }) => key));
  const asked = view.modules.filter((module) => !stems.has(stemOf(module.path))).flatMap((module) => queryMessages(module, view, surfaces, told));
  return [...undeclared, ...emptied, ...differing.flatMap((each) => differenceMessagesOf(each, view, surfaces)), ...asked];
}

/**
 * The `/// <reference>` comments of public modules, none of which stays: each once, at its first place.
 *
 * @returns {Message[]}
 */
function referenceMessages(/** @type {VerifyView} */ view) {
  /** @type {Map<string, { module: NamedModule, pos: number, end: number, count: number }>} */
  const first = new Map();
  for (const module of view.modules) {
    const file = view.sources.file(module.path);
    for (const { fileName, pos, end } of [...file.referencedFiles, ...file.typeReferenceDirectives, ...file.libReferenceDirectives]) {
      const before = first.get(fileName) || { module, pos, end, count: 0 };
      first.set(fileName, { ...before, count: before.count + 1 });
    }
  }
  return [...first].map(([name, { module, pos, end, count }]) => ({
    level: 'Warning', code: 'declared-otherwise', message: `the reference to '${name}' stands in ${count} source${count === 1 ? '' : 's'}, and in no skeleton`,
    hint: 'import what is needed of it', info: ['what it declares is not there for whoever reads the skeleton alone'], file: shownName(module.path, view.cwd),
    lines: fileOf(view.world, module).lines, start: pos, end,
  }));
}

/**
 * The files of the packages that have skeletons. What the compiler would declare for the others is asked for by nothing, and where no type is written their
 * declarations may need more memory than there is.
 */
function answeredFiles(/** @type {World} */ world, /** @type {NamedModule[]} */ modules) {
  const around = (/** @type {SourceFile} */ file) => world.info.packages.filter(({ url }) => file.specifier.startsWith(url)).sort((a, b) => b.url.length - a.url.length)[0];
  const packages = new Set(modules.map((each) => around(fileOf(world, each))));
  return [...world.files.values()].filter((file) => packages.has(around(file)));
}

/** The texts of the skeletons; of a package without skeletons, since it has messages, the sources stand. */
/** @returns {[string, string][]} */
function skeletonTexts(/** @type {World} */ world, /** @type {NamedModule[]} */ modules, /** @type {Set<string>} */ answered) {
  const others = [...world.files.values()].filter((file) => !answered.has(file.path));
  return [...modules, ...others].map((each) => [each.path, each.text]);
}

/**
 * What the compiler finds in the skeletons, or declares for them, and not in and for the sources, as messages.
 *
 * @returns {Message[]}
 */
function verify(/** @type {World} */ world, /** @type {{ cwd: string; }} */ { cwd }) {
  const modules = printed(world).map((each) => ({ ...each, path: fileOf(world, each).path }));
  const textOfFile = (/** @type {{ path: string, text: string }} */ each) => /** @type {[string, string]} */ ([each.path, each.text]);
  const data = (world.info.jsonModules || []).map(textOfFile);
  const answered = new Set(answeredFiles(world, modules).map((each) => each.path));
  const sideOf = (/** @type {[string, string][]} */ texts) => new Side(world, new Map([...texts, ...data].filter(([name]) => !/\.[cm]?jsx?$/.test(name))), answered);
  const sources = sideOf([...world.files.values()].map(textOfFile));
  const skeletons = sideOf(skeletonTexts(world, modules, answered));
  const view = { world, cwd, modules, sources, skeletons, found: ways(world).found };
  const errors = errorMessages(view);
  return [...errors, ...differenceMessages(view, new Set(errors.map((each) => each.file))), ...referenceMessages(view)];
}

module.exports = { Side, verify };
