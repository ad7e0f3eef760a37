'use strict';
// What stands for the packages outside of two versions that are compared: a module for each, in which every name that the versions mention is a class that is like
// no other. So a type of another package is the same as itself, and as nothing else.
const { moduleName } = require('./module-name.js');
const { whole: ts } = require('../compiler/typescript.js');

const { SyntaxKind: K } = ts;

/** A name that is mentioned, with the most type arguments that it was given, and the names below it. */
class Mentioned {
  constructor() {
    this.arity = 0;
    /** @type {Map<string, Mentioned>} */
    this.below = new Map();
  }

  /** Notes that a name below this one is mentioned with some type arguments. */
  note(/** @type {string[]} */ [first, ...rest], /** @type {number} */ arity) {
    if (first === undefined) {
      this.arity = Math.max(this.arity, arity);
      return;
    }
    const below = this.below.get(first) || new Mentioned();
    this.below.set(first, below);
    below.note(rest, arity);
  }

  /**
   * The declarations of all names below this one.
   *
   * @returns {string}
   */
  text(/** @type {string} */ mark) {
    return [...this.below].map(([name, it]) => {
      const own = name === 'default' ? '_default' : name;
      const word = name === 'default' ? 'declare' : mark;
      const parameters = Array.from({ length: it.arity }, (_, at) => `T${at}`);
      const list = it.arity ? `<${parameters.map((each) => `${each} = any`).join(', ')}>` : '';
      const inner = it.below.size ? `${word} namespace ${own} {\n${it.text('export')}}\n` : '';
      const opaque = `private opaque: (it: [${parameters.join(', ')}]) => [${parameters.join(', ')}];`;
      return `${word} class ${own}${list} { ${opaque} }\n${inner}${name === 'default' ? 'export default _default;\n' : ''}`;
    }).join('');
  }
}

/**
 * The names of an entity or a chain of properties, from the left; null where it is neither.
 *
 * @returns {string[] | null}
 */
function namesOf(/** @type {ts.Node} */ node) {
  if (ts.isIdentifier(node)) return [node.text];
  if (ts.isQualifiedName(node)) return append(namesOf(node.left), node.right.text);
  if (ts.isPropertyAccessExpression(node)) return append(namesOf(node.expression), node.name.text);
  return null;
}

const append = (/** @type {string[] | null} */ names, /** @type {string} */ name) => names && [...names, name];

/** The chains of names in a declaration file that stand for types, values or namespaces: `{names, arity}`; of an import type with the `source`. */
function chainsOf(/** @type {ts.Node} */ file) {
  /** @type {{ names: string[], arity: number, source?: string }[]} */
  const found = [];
  const add = (/** @type {ts.Node | undefined} */ entity, /** @type {{ readonly typeArguments?: ts.NodeArray<ts.TypeNode> }} */ node) => {
    const names = entity && namesOf(entity);
    if (names) found.push({ names, arity: (node.typeArguments || []).length });
  };
  const visit = (/** @type {ts.Node} */ node) => {
    if (ts.isTypeReferenceNode(node)) add(node.typeName, node);
    else if (ts.isExpressionWithTypeArguments(node)) add(node.expression, node);
    else if (ts.isTypeQueryNode(node)) add(node.exprName, node);
    else if (ts.isImportTypeNode(node) && ts.isLiteralTypeNode(node.argument) && ts.isStringLiteral(node.argument.literal)) {
      found.push({ source: node.argument.literal.text, names: (node.qualifier && namesOf(node.qualifier)) || [], arity: (node.typeArguments || []).length });
    }
    ts.forEachChild(node, visit);
  };
  visit(file);
  return found;
}

/** The text of the module that an import or a re-export names; undefined of another statement. */
function sourceOf(/** @type {ts.Statement} */ it) {
  const named = ts.isImportDeclaration(it) || ts.isExportDeclaration(it) ? it.moduleSpecifier
    : ts.isImportEqualsDeclaration(it) && ts.isExternalModuleReference(it.moduleReference) ? it.moduleReference.expression : undefined;
  return named && ts.isStringLiteral(named) ? named.text : undefined;
}

/** The names that an import or a re-export with a source binds or mentions: `[local, source, path]`, of a re-export without a local name. */
function importsOf(/** @type {ts.SourceFile} */ file) {
  /** @type {[local: string | null, source: string, names: string[]][]} */
  const found = [];
  for (const it of file.statements) {
    const source = sourceOf(it);
    if (source === undefined) continue;
    if (ts.isImportDeclaration(it) && it.importClause) {
      const { name, namedBindings } = it.importClause;
      if (name) found.push([name.text, source, ['default']]);
      if (namedBindings && ts.isNamespaceImport(namedBindings)) found.push([namedBindings.name.text, source, []]);
      else if (namedBindings) for (const each of namedBindings.elements) found.push([each.name.text, source, [(each.propertyName || each.name).text]]);
    } else if (ts.isExportDeclaration(it) && it.exportClause && ts.isNamedExports(it.exportClause)) {
      for (const each of it.exportClause.elements) found.push([null, source, [(each.propertyName || each.name).text]]);
    } else if (ts.isImportEqualsDeclaration(it) && ts.isExternalModuleReference(it.moduleReference)) {
      found.push([it.name.text, source, []]);
    }
  }
  return found;
}

/** All names that a file declares, however deep. */
function declaredNames(/** @type {ts.SourceFile} */ file) {
  const names = new Set();
  const visit = (/** @type {ts.Node} */ node) => {
    const { name } = /** @type {{ name?: ts.Node }} */ (node);
    if (name && ts.isIdentifier(name)) names.add(name.text);
    ts.forEachChild(node, visit);
  };
  visit(file);
  return names;
}

/** The path of the module that stands for one of another package. */
const pathOf = (/** @type {string} */ name) => `/external/${encodeURIComponent(name)}.d.ts`;

class Externals {
  /** `texts` are declaration files by their paths; `isOutside(path, text)` says whether what a file imports lies in none of them. */
  constructor(/** @type {Map<string, string>} */ texts, /** @type {(from: string, text: string) => boolean} */ isOutside) {
    /** @type {Map<string, Mentioned>} */
    this.modules = new Map();
    /** @type {{ names: string[], arity: number }[]} */
    this.loose = [];
    this.globals = new Mentioned();
    for (const [name, text] of texts) if (!name.endsWith('.json')) this.read(ts.createSourceFile(name, text, ts.ScriptTarget.ESNext, true), isOutside);
  }

  module(/** @type {string} */ source) {
    const name = moduleName(source);
    const module = this.modules.get(name) || new Mentioned();
    this.modules.set(name, module);
    return module;
  }

  read(/** @type {ts.SourceFile} */ file, /** @type {(from: string, text: string) => boolean} */ isOutside) {
    const imported = importsOf(file);
    const outside = imported.filter(([, source]) => isOutside(file.fileName, source));
    const locals = new Map(outside.filter(([local]) => local !== null).map((it) => [it[0], it]));
    for (const [, source, names] of outside) this.module(source).note(names, 0);
    const own = new Set([...declaredNames(file), ...imported.map(([local]) => local)]);
    for (const { source, names, arity } of chainsOf(file)) {
      const [first, ...rest] = names;
      const [, from, before] = locals.get(first) || [null, undefined, []];
      if (source !== undefined) {
        if (isOutside(file.fileName, source)) this.module(source).note(names, arity);
      } else if (from !== undefined) this.module(from).note([...before, ...rest], arity);
      else if (!own.has(first)) this.loose.push({ names, arity });
    }
  }

  /** Declares the names that no file declares and that `isKnown` does not know, as those of Node's own types. */
  declareGlobals(/** @type {(name: string) => boolean} */ isKnown) {
    for (const { names, arity } of this.loose) if (!isKnown(names[0])) this.globals.note(names, arity);
  }

  fileOf(/** @type {string} */ source) {
    const name = moduleName(source);
    return this.modules.has(name) ? pathOf(name) : undefined;
  }

  /**
   * The modules and the global names as declaration files by their paths.
   *
   * @returns {[string, string][]}
   */
  texts() {
    const modules = [...this.modules].map(([name, it]) => /** @type {[string, string]} */ ([pathOf(name), `${it.text('export declare')}export {};\n`]));
    return [...modules, ['/external.d.ts', this.globals.text('declare')]];
  }
}

/** The first names of all chains in a node that stand for types, values or namespaces. */
function mentionedIn(/** @type {ts.Node} */ node) {
  return chainsOf(node).filter(({ source }) => source === undefined).map(({ names }) => names[0]);
}

module.exports = { Externals, importsOf, mentionedIn };
