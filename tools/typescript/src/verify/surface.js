'use strict';
// What a package shows, as TypeScript's own compiler sees it: each declaration that the exports of its entry points lead to.
// Nothing here knows a rule of fast check.

const path = require('path');
const { hasModifier, modifiersOf } = require('../compiler/modifiers.js');
const { resolvedModule } = require('../compiler/resolve.js');
const { rewritten } = require('../compiler/rewrite.js');
const { whole: ts } = require('../compiler/typescript.js');
const { resolver } = require('../skeleton/modules.js');

const { SyntaxKind: K } = ts;

/** @typedef {Parameters<typeof resolver>[0] & { files: Map<string, { specifier: string, path: string }>, info: { jsonModules?: { specifier: string, path: string }[] } }} ResolvedWorld */

/** @type {ts.CompilerOptions} */
const OPTIONS = {
  declaration: true,
  emitDeclarationOnly: true,
  noEmitOnError: false,
  skipDefaultLibCheck: true,
  strict: true,
  strictPropertyInitialization: false,
  noImplicitAny: false,
  target: ts.ScriptTarget.ESNext,
  module: ts.ModuleKind.ESNext,
  moduleResolution: ts.ModuleResolutionKind.NodeJs,
  jsx: ts.JsxEmit.Preserve,
  resolveJsonModule: true,
  experimentalDecorators: true,
  allowImportingTsExtensions: true,
  esModuleInterop: true,
  lib: ['lib.esnext.d.ts', 'lib.dom.d.ts', 'lib.dom.iterable.d.ts'],
  types: [],
};

/** @type {{ resolvedFileName?: string }} */
const NOWHERE = {};
const LIBRARIES = path.dirname(ts.getDefaultLibFilePath(OPTIONS));
/** @type {Map<string, ts.SourceFile | undefined>} */
const libraries = new Map();
function extensionOf(/** @type {string} */ name) {
  return (/\.d\.[cm]?ts$|\.[a-z]+$/.exec(name) || [''])[0];
}

/** @returns {ts.CompilerHost} */
function hostOf(/** @type {Map<string, string>} */ texts, /** @type {(from: string, text: string) => string | undefined} */ resolve) {
  const base = ts.createCompilerHost(OPTIONS, true);
  return {
    ...base,
    fileExists: (name) => texts.has(name),
    readFile: (name) => texts.get(name),
    directoryExists: () => true,
    getSourceFile(name, target) {
      const text = texts.get(name);
      if (text !== undefined) return ts.createSourceFile(name, text, target, true);
      // What a comment refers to is not read.
      if (path.dirname(name) !== LIBRARIES) return undefined;
      if (!libraries.has(name)) libraries.set(name, base.getSourceFile(name, target));
      return libraries.get(name);
    },
    resolveModuleNames: (names, from) => names.map((text) => {
      const found = resolve(from, text);
      return found ? { resolvedFileName: found, extension: extensionOf(found), isExternalLibraryImport: false } : undefined;
    }),
    resolveTypeReferenceDirectives: (names) => names.map(() => undefined),
  };
}

/** A compiler's program over texts by their paths. */
function programOf(/** @type {Map<string, string>} */ texts, /** @type {(from: string, text: string) => string | undefined} */ resolve) {
  const roots = [...texts.keys()].filter((it) => !it.endsWith('.json'));
  return ts.createProgram(roots, OPTIONS, hostOf(texts, resolve));
}

/**
 * For modules by themselves: else the compiler writes `any` for an optional parameter of a type that a missing module declares.
 */
function takeLooseTypes() {
  OPTIONS.strict = false;
}

/**
 * The declarations that the compiler emits of the texts that are wanted, by their paths; declaration files are their own.
 *
 * @param {ts.Program} program
 * @param {Map<string, string>} texts
 * @param {(name: string) => boolean} [isWanted]
 * @returns {Map<string, string>}
 */
function emitted(program, texts, isWanted = () => true) {
  /** @type {Map<string, string>} */
  const made = new Map();
  const write = (/** @type {string} */ name, /** @type {string} */ text) => made.set(name, text);
  for (const [name, text] of texts) {
    if (/\.d\.[cm]?ts$/.test(name)) made.set(name, text);
    // File by file: of all at once the compiler checks those too that are not wanted.
    else if (!name.endsWith('.json') && isWanted(name)) program.emit(program.getSourceFile(name), write, undefined, true);
  }
  return made;
}

// ---- declarations in one form

const isPrivate = (/** @type {ts.ClassElement} */ node) => Boolean(node.name && ts.isPrivateIdentifier(node.name)) || hasModifier(node, K.PrivateKeyword);

const PRINTER = ts.createPrinter({ removeComments: true, omitTrailingSemicolon: true });

/**
 * The members of a union, each once, in the order of their texts.
 *
 * @returns {ts.TypeNode}
 */
function unionOf(/** @type {readonly ts.TypeNode[]} */ types, /** @type {ts.SourceFile} */ file) {
  const members = types.flatMap((it) => (ts.isUnionTypeNode(it) ? [...it.types] : [it]));
  const byText = new Map(members.map((it) => [PRINTER.printNode(ts.EmitHint.Unspecified, it, file), it]));
  const sorted = [...byText].sort(([a], [b]) => (a < b ? -1 : 1)).map(([, it]) => it);
  return sorted.length === 1 ? sorted[0] : ts.factory.createUnionTypeNode(sorted);
}

/**
 * `T[]` for `Array<T>`, and so on.
 *
 * @returns {ts.TypeNode}
 */
function arrayOf(/** @type {ts.TypeReferenceNode} */ node) {
  const [element, ...more] = node.typeArguments || [];
  if (!element || more.length || !ts.isIdentifier(node.typeName)) return node;
  const array = ts.factory.createArrayTypeNode(element);
  if (node.typeName.text === 'Array') return array;
  return node.typeName.text === 'ReadonlyArray' ? ts.factory.createTypeOperatorNode(K.ReadonlyKeyword, array) : node;
}

/**
 * A statement; of one with several variables a statement for each.
 *
 * @returns {ts.Statement[]}
 */
function eachVariable(/** @type {ts.Statement} */ node) {
  if (!ts.isVariableStatement(node) || node.declarationList.declarations.length < 2) return [node];
  const list = (/** @type {ts.VariableDeclaration} */ it) => ts.factory.createVariableDeclarationList([it], node.declarationList.flags);
  return node.declarationList.declarations.map((it) => ts.factory.createVariableStatement(node.modifiers, list(it)));
}

/**
 * A node in one form, without what says nothing in a declaration: names in patterns and types of private members, which no skeleton has, parentheses, which the
 * printer writes again where they are needed, and the order of a union.
 */
function plainly(/** @type {ts.Node} */ node) {
  const file = node.getSourceFile();
  return rewritten(node, (at, visit, inside) => {
    if (ts.isObjectBindingPattern(at)) return ts.factory.createObjectBindingPattern([]);
    if (ts.isArrayBindingPattern(at)) return ts.factory.createArrayBindingPattern([]);
    if (isMember(at) && isPrivate(at)) return withoutType(at);
    if (ts.isParameter(at) && !ts.isIdentifier(at.name)) return inside(namedParameter(at));
    if (ts.isParenthesizedTypeNode(at)) return visit(at.type);
    // Names and literals by what they stand for, however they are written.
    if (ts.isIdentifier(at)) return ts.factory.createIdentifier(at.text);
    if (ts.isStringLiteral(at)) return ts.factory.createStringLiteral(at.text);
    if (ts.isNumericLiteral(at)) return ts.factory.createNumericLiteral(at.text);
    if (ts.isModuleBlock(at)) return ts.factory.createModuleBlock(at.statements.flatMap(eachVariable).map((it) => /** @type {ts.Statement} */ (visit(it))));
    const made = inside(at);
    if (ts.isUnionTypeNode(made)) return unionOf(made.types, file);
    if (ts.isClassDeclaration(made)) return withoutTwice(made, file);
    return ts.isTypeReferenceNode(made) ? arrayOf(made) : made;
  });
}

/** A parameter that is a pattern, by a name. */
function namedParameter(/** @type {ts.ParameterDeclaration} */ node) {
  const name = `param${/** @type {ts.SignatureDeclaration} */ (node.parent).parameters.findIndex((it) => it === node)}`;
  return ts.factory.createParameterDeclaration(undefined, node.dotDotDotToken, name, node.questionToken, node.type);
}

/** @type {(node: ts.Node) => node is ts.PropertyDeclaration | ts.MethodDeclaration | ts.AccessorDeclaration} */
const isMember = (node) => ts.isPropertyDeclaration(node) || ts.isMethodDeclaration(node) || ts.isAccessor(node);

/** A private member as a property with its accessibility and its name alone. */
function withoutType(/** @type {ts.PropertyDeclaration | ts.MethodDeclaration | ts.AccessorDeclaration} */ node) {
  const kept = modifiersOf(node).filter((it) => it.kind === K.PrivateKeyword || it.kind === K.StaticKeyword);
  return ts.factory.createPropertyDeclaration(kept, node.name, undefined, undefined, undefined);
}

/** A class in which no private member stands twice, as a getter and its setter. */
function withoutTwice(/** @type {ts.ClassDeclaration} */ node, /** @type {ts.SourceFile} */ file) {
  const seen = new Set();
  const members = node.members.filter((it) => {
    const text = PRINTER.printNode(ts.EmitHint.Unspecified, it, file);
    const isSeen = ts.isPropertyDeclaration(it) && isPrivate(it) && seen.has(text);
    seen.add(text);
    return !isSeen;
  });
  const { modifiers, name, typeParameters, heritageClauses } = node;
  return ts.factory.updateClassDeclaration(node, modifiers, name, typeParameters, heritageClauses, members);
}

/** The text of a node without comments and line breaks. */
function textOf(/** @type {ts.Node} */ node) {
  return PRINTER.printNode(ts.EmitHint.Unspecified, plainly(node), node.getSourceFile()).replace(/\s+/g, ' ');
}

/** Types as written, but for quotes, endings of relative sources, `x = 1` for `x: 1`, and `undefined` of what may be left out. */
function normalise(/** @type {string} */ text) {
  return text
    .replace(/'((?:[^'\\"]|\\.)*)'/g, '"$1"')
    .replace(/\b((?:readonly|const) (?:[\w$]+|"[^"]*"|\[[^\]]*\])) = ("(?:[^"\\]|\\.)*"|-?[\d.]\w*|true|false)/g, '$1: $2')
    .replace(/"(\.{1,2}\/[^"]*?)(\.d)?\.[cm]?[jt]sx?"/g, '"$1"')
    .replace(/"(\.{1,2}\/[^"]*)\/index"/g, '"$1"')
    .replace(/\b(export|declare) /g, '')
    .replace(/(\?: )([^,;(){}=>]+?) \| undefined(?=[,;)])/g, '$1$2')
    .replace(/(\?: )\(((?:[^()]|\([^()]*\))*)\) \| undefined(?=[,;)])/g, '$1$2')
    .replace(/[;,] ?([}\])])/g, ' $1')
    .replace(/\s+/g, ' ')
    .trim();
}

// ---- the walk

/** @type {(name: string, type: ts.TypeNode | undefined) => [string, ts.TypeNode | undefined]} */
const named = (name, type) => [name, type];

class Surface {
  constructor(/** @type {ts.Program} */ program, /** @type {Set<string>} */ files) {
    this.program = program;
    this.checker = program.getTypeChecker();
    this.files = files;
    /** @type {Set<ts.Symbol | ts.Node>} */
    this.seen = new Set();
    /** @type {Map<string, Set<string>>} */
    this.shown = new Map();
    /** @type {Map<string, ts.Node[]>} */
    this.nodes = new Map();
    /** @type {Set<string>} */
    this.lost = new Set();
  }

  isOurs(/** @type {ts.Node} */ node) {
    return this.files.has(node.getSourceFile().fileName);
  }

  keyOf(/** @type {ts.Node} */ node) {
    const names = [];
    for (let at = node; at && !ts.isSourceFile(at); at = at.parent) {
      const { name } = /** @type {{ name?: ts.Node }} */ (at);
      if (name && !ts.isModuleBlock(at)) names.unshift(ts.isIdentifier(name) ? name.text : name.getText());
    }
    const stem = node.getSourceFile().fileName.replace(/(\.d)?\.[cm]?tsx?$/, '');
    return `${stem}#${names.join('.') || 'default'}`;
  }

  entry(/** @type {string} */ name) {
    const file = this.program.getSourceFile(name);
    const symbol = file && this.checker.getSymbolAtLocation(file);
    if (!symbol) {
      this.lost.add(`no module ${name}`);
      return;
    }
    this.module(symbol);
  }

  module(/** @type {ts.Symbol} */ symbol) {
    if (this.seen.has(symbol)) return;
    this.seen.add(symbol);
    const names = [];
    for (const it of this.checker.getExportsOfModule(symbol)) {
      names.push(it.name);
      this.symbol(it);
    }
    const file = symbol.declarations && symbol.declarations[0].getSourceFile().fileName;
    if (file) this.shown.set(`${file.replace(/(\.d)?\.[cm]?tsx?$/, '')}#*`, new Set([names.sort().join(' ')]));
  }

  symbol(/** @type {ts.Symbol} */ found) {
    let symbol = found;
    if (symbol.flags & ts.SymbolFlags.Alias) {
      const target = this.checker.getAliasedSymbol(symbol);
      // What leads out of the package is unknown in both worlds.
      if (!target.declarations) return;
      symbol = target;
    }
    if (this.seen.has(symbol)) return;
    const [first] = symbol.declarations || [];
    if (first && ts.isSourceFile(first)) {
      this.module(symbol);
      return;
    }
    this.seen.add(symbol);
    for (const it of symbol.declarations || []) if (this.isOurs(it)) this.declaration(it);
  }

  /** The declaration that stands at the top of a module or a namespace around a node. */
  outermost(/** @type {ts.Node} */ node) {
    let at = node;
    while (at.parent && !(ts.isSourceFile(at.parent) || ts.isModuleBlock(at.parent) || ts.isVariableDeclaration(at))) at = at.parent;
    return at;
  }

  declaration(/** @type {ts.Node} */ found) {
    if (found.kind === K.TypeParameter) return;
    const node = ts.isSourceFile(found) ? found : this.outermost(found);
    if (ts.isSourceFile(node) || this.seen.has(node)) return;
    this.seen.add(node);
    const key = this.keyOf(node);
    const texts = this.shown.get(key) || new Set();
    this.shown.set(key, texts);
    this.nodes.set(key, [...(this.nodes.get(key) || []), node]);
    const properties = this.propertiesOf(node);
    if (properties) {
      // By what each property is, however the variables behind them are named and the blocks parted.
      for (const [name, type] of properties) {
        texts.add(normalise(`var ${name}: ${type ? textOf(type) : 'any'}`));
        if (type) this.reach(type);
      }
      return;
    }
    texts.add(normalise(declarationText(node)));
    this.references(node);
  }

  /**
   * The properties of a function that a block of a namespace declares, by their names; null of another declaration.
   *
   * @returns {[string, ts.TypeNode | undefined][] | null}
   */
  propertiesOf(/** @type {ts.Node} */ node) {
    if (!ts.isModuleDeclaration(node) || !node.body || !ts.isModuleBlock(node.body)) return null;
    const symbol = this.checker.getSymbolAtLocation(node.name);
    if (!symbol || !(symbol.flags & ts.SymbolFlags.Function)) return null;
    const { statements } = node.body;
    if (!statements.every((it) => ts.isVariableStatement(it) || (ts.isExportDeclaration(it) && !it.moduleSpecifier && it.exportClause))) return null;
    const lists = statements.flatMap((it) => (ts.isExportDeclaration(it) && it.exportClause && ts.isNamedExports(it.exportClause) ? [...it.exportClause.elements] : []));
    const isExported = (/** @type {ts.VariableDeclaration} */ it) => !lists.length || (ts.getCombinedModifierFlags(it) & ts.ModifierFlags.Export) !== 0;
    const variables = statements.filter(ts.isVariableStatement).flatMap((it) => [...it.declarationList.declarations]).filter(isExported);
    const typeOf = (/** @type {ts.ExportSpecifier} */ it) => {
      const { valueDeclaration: target } = this.checker.getExportSpecifierLocalTargetSymbol(it) || { valueDeclaration: undefined };
      return target && ts.isVariableDeclaration(target) ? target.type : undefined;
    };
    return [...variables.map((it) => named(it.name.getText(), it.type)), ...lists.map((it) => named(it.name.text, typeOf(it)))];
  }

  /** Follows what stands in a declaration. */
  references(/** @type {ts.Node} */ node) {
    ts.forEachChild(node, (it) => this.reach(it));
  }

  reach(/** @type {ts.Node} */ at) {
    if (ts.isIdentifier(at)) this.reference(at);
    else if (ts.isQualifiedName(at)) this.last(at, at.right);
    else if (ts.isPropertyAccessExpression(at)) this.last(at, at.name);
    else if (ts.isImportTypeNode(at)) this.importType(at);
    else this.references(at);
  }

  importType(/** @type {ts.ImportTypeNode} */ node) {
    if (node.qualifier) this.reach(node.qualifier);
    else if (ts.isLiteralTypeNode(node.argument)) {
      const symbol = this.checker.getSymbolAtLocation(node.argument.literal);
      if (symbol) this.symbol(symbol);
    }
    for (const it of node.typeArguments || []) this.reach(it);
  }

  last(/** @type {ts.Node} */ node, /** @type {ts.Node} */ name) {
    const symbol = this.checker.getSymbolAtLocation(name);
    if (symbol && symbol.declarations) this.symbol(symbol);
    let first = node;
    while (ts.isQualifiedName(first) || ts.isPropertyAccessExpression(first)) first = ts.isQualifiedName(first) ? first.left : first.expression;
    const namespace = this.checker.getSymbolAtLocation(first);
    if (namespace && !(namespace.flags & (ts.SymbolFlags.Namespace | ts.SymbolFlags.Alias))) this.symbol(namespace);
  }

  reference(/** @type {ts.Node} */ node) {
    const symbol = this.checker.getSymbolAtLocation(node);
    if (symbol) this.symbol(symbol);
  }
}

/** The text of a declaration; of a variable with what it is declared by. */
function declarationText(/** @type {ts.Node} */ node) {
  if (!ts.isVariableDeclaration(node)) return textOf(node);
  const word = node.parent.flags & ts.NodeFlags.Const ? 'const' : node.parent.flags & ts.NodeFlags.Let ? 'let' : 'var';
  return `${word} ${textOf(node).replace(/^([\w$]+) = /, '$1: ')}`;
}

/** What the entry points of declaration files show: sets of texts by `file#name`. */
function surfaceOf(/** @type {ts.Program} */ program, /** @type {Map<string, string>} */ texts, /** @type {string[]} */ entries) {
  const surface = new Surface(program, new Set(texts.keys()));
  for (const it of entries) surface.entry(it);
  return surface;
}

/**
 * Where the texts of imports lead among some texts: as the graph resolves them, to a module or to its declarations.
 *
 * @returns {(from: string, text: string) => string | undefined}
 */
function resolverOf(/** @type {ResolvedWorld} */ world, /** @type {Map<string, string>} */ texts) {
  const resolve = resolver(world);
  const host = { fileExists: (/** @type {string} */ name) => texts.has(name), readFile: (/** @type {string} */ name) => texts.get(name), getCurrentDirectory: () => '/' };
  const known = [...world.files.values(), ...(world.info.jsonModules || [])];
  const paths = new Map(known.map((it) => [it.specifier, it.path]));
  /** @type {Map<string, string>} */
  const specifiers = new Map();
  for (const it of known) specifiers.set(declarationName(it.path), it.specifier).set(it.path, it.specifier);
  return (/** @type {string} */ from, /** @type {string} */ text) => {
    const own = specifiers.get(from);
    const target = own === undefined ? undefined : resolve(own, text);
    const to = target === undefined ? undefined : paths.get(target);
    const names = to ? [to, declarationName(to)] : [];
    return names.find((it) => texts.has(it)) || (resolvedModule(text, from, OPTIONS, host) || NOWHERE).resolvedFileName;
  };
}

/** The name of the declarations of a module. */
function declarationName(/** @type {string} */ name) {
  return name.replace(/(\.d)?\.([cm]?)tsx?$/, '.d.$2ts');
}

/**
 * Where two surfaces differ: the key of each declaration with the texts that the one has and the other has not.
 *
 * @returns {import('./types').SurfaceDifference[]}
 */
function compared(/** @type {Surface} */ source, /** @type {Surface} */ skeleton) {
  /** @type {Set<string>} */
  const nothing = new Set();
  const keys = [...new Set([...source.shown.keys(), ...skeleton.shown.keys()])];
  return keys.map((key) => {
    const [texts, others] = [source.shown.get(key) || nothing, skeleton.shown.get(key) || nothing];
    const [missing, added] = [[...texts].filter((it) => !others.has(it)).sort(), [...others].filter((it) => !texts.has(it)).sort()];
    return { key, missing, added, isLost: !others.size, isNew: !texts.size };
  }).filter(({ missing, added }) => missing.length || added.length);
}

/**
 * What the compiler finds wrong in a file of a program: `{code, start, end, text}`.
 *
 * @returns {import('./types').FoundError[]}
 */
function errorsIn(/** @type {ts.Program} */ program, /** @type {string} */ name) {
  const file = program.getSourceFile(name);
  const found = file ? [...program.getSyntacticDiagnostics(file), ...program.getSemanticDiagnostics(file)] : [];
  return found.map(({ start = 0, length = 0, ...it }) => ({ code: it.code, start, end: start + length, text: ts.flattenDiagnosticMessageText(it.messageText, ' ') }));
}

module.exports = { Surface, programOf, resolverOf, declarationName, emitted, surfaceOf, compared, errorsIn, normalise, takeLooseTypes, textOf };
