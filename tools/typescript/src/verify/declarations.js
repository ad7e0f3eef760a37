'use strict';
// Whether the declaration files of skeletons declare what the compiler declares for the skeletons, and have no errors that the skeletons have not.

const { filesOf } = require('../program/answer.js');
const { declarationFiles, declarationName } = require('../skeleton/declaration-files.js');
const { compared, errorsIn, normalise, surfaceOf } = require('./surface.js');
const { whole: ts } = require('../compiler/typescript.js');

/** @typedef {import('./types').DeclarationsView} DeclarationsView */
/** @typedef {import('../program/types').World} World */
/** @typedef {import('./types').SurfaceDifference} SurfaceDifference */
/** @typedef {import('./types').ToJudge} ToJudge */
/** @typedef {import('./surface.js').Surface} Surface */

const { NoTruncation, AllowUniqueESSymbolType, UseAliasDefinedOutsideCurrentScope } = ts.TypeFormatFlags;
const FLAGS = NoTruncation | AllowUniqueESSymbolType;

/** A text of types with the members of unions in order. */
function inOrder(/** @type {string} */ text) {
  const sorted = (/** @type {string} */ it) => it.split('|').map((each) => each.trim()).sort().join(' | ');
  return text.split(/([;:,{}()[\]<>]|=>)/).map((it) => it.replace(/\S(.*\S)?/s, sorted)).join('');
}

/** A text of types in which type parameters of signatures beside each other have the names that are written: the compiler may call the second `T_1`. */
function withWrittenNames(/** @type {string} */ text, /** @type {ts.Node} */ node) {
  const names = new Set();
  const visit = (/** @type {ts.Node} */ at) => {
    if (ts.isTypeParameterDeclaration(at)) names.add(at.name.text);
    ts.forEachChild(at, visit);
  };
  visit(node);
  const plain = (/** @type {string} */ name) => name.replace(/_\d+$/, '');
  return text.replace(/[\w$]+_\d+\b/g, (name) => (names.has(name) || names.has(plain(name)) ? plain(name) : name));
}

/** The types of a declaration, as the compiler resolves them: of a class member by member. From a `place` that sees no alias each is resolved too. */
function typesOf(/** @type {ts.Node} */ node, /** @type {ts.TypeChecker} */ checker, /** @type {ts.Node | undefined} */ place) {
  const flags = place ? FLAGS : FLAGS | UseAliasDefinedOutsideCurrentScope;
  const told = (/** @type {ts.Node} */ it) => withWrittenNames(inOrder(normalise(checker.typeToString(checker.getTypeAtLocation(it), place, flags))), node);
  if (!ts.isClassDeclaration(node)) return told(node);
  const isPrivate = (/** @type {ts.ClassElement} */ it) => it.name && (ts.isPrivateIdentifier(it.name) || ts.getCombinedModifierFlags(it) & ts.ModifierFlags.Private);
  return node.members.map((it) => `${it.name ? it.name.getText() : ''} ${isPrivate(it) ? '' : told(it)}`).join('\n');
}

/** Whether a declaration has the same types in two surfaces. */
function isAlike(/** @type {string} */ key, /** @type {Surface} */ one, /** @type {Surface} */ other) {
  const library = (/** @type {Surface} */ { program }) => program.getSourceFiles().find((it) => program.isSourceFileDefaultLibrary(it));
  const types = (/** @type {Surface} */ surface, /** @type {ts.Node | undefined} */ place) => (surface.nodes.get(key) || []).map((it) => typesOf(it, surface.checker, place)).sort().join('\n');
  return types(one, undefined) === types(other, undefined) || types(one, library(one)) === types(other, library(other));
}

/** What the compiler finds wrong in some files of a program, as it says it. */
function errorsOf(/** @type {ts.Program} */ program, /** @type {Iterable<string>} */ names) {
  return [...names].flatMap((name) => errorsIn(program, name).map((it) => ({ name, text: `${it.code} ${it.text}` })));
}

/**
 * Compares the declaration files `made` with what the compiler declares for the `skeletons`, `declared`, all by their paths: the errors that the skeletons have
 * not, and the declarations that differ, by their texts and by the types in them.
 */
function judged(/** @type {ToJudge} */ { made, declared, skeletons, skeletonProgram, entries, programOf }) {
  const program = programOf(made);
  const known = new Set(errorsOf(skeletonProgram, skeletons.keys()).map((it) => it.text));
  const errors = errorsOf(program, made.keys()).filter((it) => !known.has(it.text));
  const [before, shown] = [surfaceOf(programOf(declared), declared, entries), surfaceOf(program, made, entries)];
  // Of a module with an error in its declarations the compiler emits none.
  const stems = new Set([...declared.keys()].map((it) => it.replace(/(\.d)?\.[cm]?tsx?$/, '')));
  const isDeclared = (/** @type {SurfaceDifference} */ { key }) => stems.has(key.slice(0, key.lastIndexOf('#')));
  // `typeof x` leads to `x`, the type that the compiler finds for the value does not.
  const isMentioned = (/** @type {SurfaceDifference} */ { key, isNew }) => isNew && !key.endsWith('#*');
  const differ = compared(before, shown).filter((it) => isDeclared(it) && !isMentioned(it) && !isAlike(it.key, before, shown));
  return { errors, shown, differ, count: before.shown.size };
}

/**
 * Judges the declaration files of a package: `world` has its `skeletons`, `view` what the compiler declares for these and for the sources. A declaration of
 * which the skeleton parts from the source may be as the source's.
 */
function judgeDeclarations(/** @type {World} */ world, /** @type {DeclarationsView} */ { declared, source, skeletons, entries, programOf, skeletonProgram }) {
  const { files, messages } = declarationFiles({ ...world, files: filesOf(world.info, world.dir) }, (file) => file);
  const paths = new Map(world.info.modules.map((it) => [it.specifier, it.path]));
  const data = [...skeletons].filter(([name]) => name.endsWith('.json'));
  /** @type {Map<string, string>} */
  const made = new Map([...files.map((it) => /** @type {[string, string]} */ ([declarationName(paths.get(it.specifier) || ''), it.text])), ...data]);
  if (messages.length) return { files: files.length, untold: messages.map((it) => it.message), errors: [], asSource: 0, differ: [] };
  const found = judged({ made, declared, skeletons, skeletonProgram, entries: entries.map(declarationName), programOf });
  const asSource = found.differ.filter(({ key }) => isAlike(key, source, found.shown));
  const differ = found.differ.filter((it) => !asSource.includes(it)).map(({ key, missing, added }) => ({ key: key.replace(/^.*\//, ''), skeleton: missing, file: added }));
  return { files: files.length, compared: found.count, untold: [], errors: found.errors.map((it) => it.text), asSource: asSource.length, differ };
}

module.exports = { inOrder, isAlike, judgeDeclarations, judged };
