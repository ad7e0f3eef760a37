'use strict';
// The edits that give a declaration the type that TypeScript's compiler infers, for each message that asks for one.

const { rewritten } = require('../compiler/rewrite.js');
const { modifiersOf } = require('../compiler/modifiers.js');
const { whole: ts } = require('../compiler/typescript.js');

/** @typedef {import('./types').Edit} Edit */
/** @typedef {import('./types').Imported} Imported */
/** @typedef {import('./naming.js').Naming} Naming */

const { SyntaxKind: K } = ts;

const Flags = ts.NodeBuilderFlags;
const FLAGS = Flags.NoTruncation | Flags.AllowUniqueESSymbolType | Flags.AllowNodeModulesRelativePaths | Flags.WriteClassExpressionAsTypeLiteral;
// With the names of types that are not in sight, where these can be imported; else as what they stand for.
const WAYS = [FLAGS | Flags.UseAliasDefinedOutsideCurrentScope, FLAGS];
// The most characters of a type that is written.
const LONGEST = 400;
// The most parts of a type that are looked at.
const MOST_PARTS = 1000;
const DEFAULT = '_default';

/** Why a type is not written. */
class NotFixed extends Error {}

/** It is not written, nor by the name of a value: the compiler has none. */
class NoType extends NotFixed {}

// ---- what a message points to

/**
 * The parts of a declaration, of which a node of any kind may have some.
 *
 * @param {ts.Node} node
 * @returns {{ name?: ts.Node, type?: ts.TypeNode, initializer?: ts.Expression, body?: ts.Node, expression?: ts.Expression, questionToken?: ts.Node, exclamationToken?: ts.Node }}
 */
const partsOf = (node) => /** @type {object} */ (node);

function isTypable(/** @type {ts.Node} */ node) {
  return ts.isFunctionLike(node) || ts.isVariableDeclaration(node) || ts.isParameter(node) || ts.isPropertyDeclaration(node);
}

/** Whether a node, its name, or what stands behind its modifiers begins at an offset. */
function beginsAt(/** @type {ts.Node} */ node, /** @type {ts.SourceFile} */ file, /** @type {number} */ start) {
  const modifiers = modifiersOf(node);
  const behind = modifiers.length ? ts.skipTrivia(file.text, modifiers[modifiers.length - 1].end) : -1;
  return (partsOf(node).name || node).getStart(file) === start || node.getStart(file) === start || behind === start;
}

/**
 * The smallest node that begins at an offset and may be given a type.
 *
 * @returns {ts.Node | null}
 */
function declarationAt(/** @type {ts.SourceFile} */ file, /** @type {number} */ start, /** @type {number} */ end) {
  /** @type {ts.Node | null} */
  let best = null;
  const visit = (/** @type {ts.Node} */ node) => {
    if (node.pos > start || node.end < end) return;
    if (isTypable(node) && beginsAt(node, file, start)) best = node;
    ts.forEachChild(node, visit);
  };
  visit(file);
  return best;
}

/**
 * The function of a node whose return type is missing.
 *
 * @returns {ts.SignatureDeclaration | null}
 */
function functionOf(/** @type {ts.Node} */ node) {
  if (ts.isFunctionLike(node)) return node;
  let value = partsOf(node).initializer;
  while (value && ts.isParenthesizedExpression(value)) value = value.expression;
  return value && ts.isFunctionLike(value) ? value : null;
}

/** Whether an identifier is the name of a member or of what another module exports, and takes no name here. */
function isElsewhere(/** @type {ts.Identifier} */ identifier) {
  const { parent } = identifier;
  const { propertyName, right, name } = /** @type {{ propertyName?: ts.Node, right?: ts.Node, name?: ts.Node }} */ (parent);
  if (propertyName === identifier || right === identifier) return !ts.isBinaryExpression(parent);
  if (ts.isExportSpecifier(parent)) return Boolean(parent.parent.parent.moduleSpecifier);
  const isMember = [ts.isPropertyAccessExpression, ts.isClassElement, ts.isTypeElement, ts.isPropertyAssignment, ts.isEnumMember].some((is) => is(parent));
  return isMember && name === identifier;
}

/** The identifiers of a file that may stand for something there. */
function identifiersOf(/** @type {ts.SourceFile} */ file) {
  const found = new Set();
  const visit = (/** @type {ts.Node} */ node) => {
    if (ts.isIdentifier(node) && !isElsewhere(node)) found.add(node.text);
    ts.forEachChild(node, visit);
  };
  visit(file);
  return found;
}

// ---- types as text

/** Whether a type has more names and words than it may have characters: it is not even printed then. */
function isLong(/** @type {ts.Node} */ node) {
  let count = 0;
  /** @type {(at: ts.Node) => boolean} */
  const visit = (at) => {
    let isLeaf = true;
    const isOver = ts.forEachChild(at, (it) => {
      isLeaf = false;
      return visit(it);
    });
    if (isLeaf) count += 1;
    return Boolean(isOver) || count > LONGEST;
  };
  return visit(node);
}

/**
 * Whether an expression is a name, or one with dots.
 *
 * @returns {boolean}
 */
function isName(/** @type {ts.Node} */ node) {
  return ts.isIdentifier(node) || (ts.isPropertyAccessExpression(node) && ts.isIdentifier(node.name) && isName(node.expression));
}

/** The text of a value that is a name; null of another one. */
function nameOf(/** @type {ts.Node | undefined} */ value, /** @type {ts.SourceFile} */ file) {
  return value && isName(value) ? value.getText(file) : null;
}

/** @returns {ts.Identifier} */
function firstName(/** @type {ts.EntityName} */ qualifier) {
  return ts.isIdentifier(qualifier) ? qualifier : firstName(qualifier.left);
}

/** The name that something is declared by, where it is exported as default. */
function ownName(/** @type {ts.Identifier} */ identifier) {
  const declarations = (identifier.symbol && identifier.symbol.declarations) || [];
  const [named] = declarations.flatMap((it) => partsOf(it).name || []).filter(ts.isIdentifier);
  return named ? named.text : identifier.text;
}

/** @returns {string} */
function entityText(/** @type {ts.EntityName} */ qualifier) {
  return ts.isIdentifier(qualifier) ? qualifier.text : `${entityText(qualifier.left)}.${qualifier.right.text}`;
}

const isAnonymous = (/** @type {ts.Type} */ type) => Boolean(type.flags & ts.TypeFlags.Object && (type.objectFlags || 0) & ts.ObjectFlags.Anonymous);

/** The declaration of a class that is a value, where a type is of it or of what it makes. */
function classOf(/** @type {ts.Type} */ { symbol }) {
  const declaration = symbol && symbol.valueDeclaration;
  return declaration && ts.isClassExpression(declaration) ? declaration : null;
}

/**
 * Whether `any` stands in a type.
 *
 * @returns {boolean}
 */
function hasAny(/** @type {ts.Node} */ node) {
  return node.kind === K.AnyKeyword || Boolean(ts.forEachChild(node, hasAny));
}

/**
 * What a declaration takes its type from.
 *
 * @returns {ts.Node | undefined}
 */
function valueOf(/** @type {ts.Node} */ node) {
  if (ts.isBindingElement(node)) return valueOf(node.parent.parent);
  const { initializer, body, expression } = partsOf(node);
  return initializer || body || expression;
}

/** The parts of types that are written out where no name stands for them, seen from a node. */
class Parts {
  constructor(/** @type {ts.TypeChecker} */ checker, /** @type {ts.Node} */ node) {
    this.checker = checker;
    this.node = node;
    /** @type {Map<string, Set<ts.Type>>} */
    this.seen = new Map();
    this.count = 0;
  }

  /** Whether a type is met for the first time with these classes around it. */
  isNew(/** @type {ts.Type} */ type, /** @type {{ declaration: ts.Node, isStatic: boolean }[]} */ around) {
    const key = around.map((it) => `${it.isStatic} ${it.declaration.pos}`).join();
    const types = this.seen.get(key) || new Set();
    this.seen.set(key, types);
    if (types.has(type) || this.count > MOST_PARTS) return false;
    this.count += 1;
    return Boolean(types.add(type));
  }

  /**
   * Whether a part of a type is not known.
   *
   * @returns {boolean}
   */
  hasUnknown(/** @type {ts.Type} */ type) {
    if (type.intrinsicName === 'error' && !type.aliasSymbol) return true;
    return this.isNew(type, []) && this.of(type).some((it) => this.hasUnknown(it));
  }

  /**
   * Whether a class that is a value is in its own parts: written out, it has no end.
   *
   * @returns {boolean}
   */
  hasCircle(/** @type {ts.Type} */ type, /** @type {import('./types').Around[]} */ around = []) {
    const declaration = classOf(type);
    const isStatic = isAnonymous(type);
    if (declaration && around.some((it) => it.declaration === declaration && it.isStatic === isStatic)) return true;
    const inside = declaration ? [...around, { declaration, isStatic }] : around;
    return this.isNew(type, around) && this.of(type).some((it) => this.hasCircle(it, inside));
  }

  /**
   * Whether a type is in its own parts with no name around it: where it comes again, the compiler writes `any`.
   *
   * @returns {boolean}
   */
  hasOwn(/** @type {ts.Type} */ type, /** @type {ts.Type[]} */ around = []) {
    if (around.includes(type)) return true;
    this.count += 1;
    const isWritten = isAnonymous(type) && !type.aliasSymbol;
    return this.count <= MOST_PARTS && this.of(type).some((it) => this.hasOwn(it, isWritten ? [...around, type] : around));
  }

  /** @returns {ts.Type[]} */
  of(/** @type {ts.Type} */ type) {
    const { checker, node } = this;
    const named = [...(type.aliasTypeArguments || []), ...(type.types || [])];
    if (!(type.flags & ts.TypeFlags.Object)) return named;
    const isReference = (type.objectFlags || 0) & ts.ObjectFlags.Reference;
    const all = isReference ? [...named, ...checker.getTypeArguments(/** @type {ts.TypeReference} */ (type))] : named;
    const isNamed = type.symbol && type.symbol.flags & ts.SymbolFlags.Class && !classOf(type);
    if (isNamed || !(classOf(type) || isAnonymous(type))) return all;
    const signatures = [...type.getCallSignatures(), ...type.getConstructSignatures()];
    const ofSignature = (/** @type {ts.Signature} */ it) => [it.getReturnType(), ...it.getParameters().map((each) => checker.getTypeOfSymbolAtLocation(each, node))];
    const members = type.getProperties().map((it) => checker.getTypeOfSymbolAtLocation(it, node));
    return [...all, ...signatures.flatMap(ofSignature), ...members, ...checker.getIndexInfosOfType(type).map((it) => it.type)];
  }
}

/** Writes the types of one file: what is taken there, and what has to be imported. `naming` says how the file names what other modules export. */
class TypeWriter {
  /** `circles` are the places of names that the compiler finds no type for, since they are in a circle, as `file place`. */
  constructor(/** @type {ts.TypeChecker} */ checker, /** @type {ts.SourceFile} */ file, /** @type {Naming} */ naming, /** @type {Set<string>} */ circles) {
    this.checker = checker;
    this.file = file;
    this.naming = naming;
    this.circles = circles;
    this.taken = identifiersOf(file);
    /** @type {Map<string, string>} */
    this.imports = new Map();
    /** @type {Map<string, Imported>} */
    this.used = new Map();
  }

  /** The name by which something is imported, where it is free; else null. */
  imported(/** @type {{ source: string, name: string | null }} */ { source, name }, /** @type {string} */ wanted) {
    const local = name === 'default' || name === null ? wanted : name;
    const key = `${source}\n${name}`;
    const isFree = local !== 'default' && (this.imports.get(local) === key || !(this.taken.has(local) || this.imports.has(local)));
    if (!isFree) return null;
    this.imports.set(local, key);
    this.used.set(local, { source, name });
    return local;
  }

  /** A type of another module by a name that is imported, where it is free, or by its module. */
  importType(/** @type {ts.ImportTypeNode} */ at, /** @type {(at: ts.Node) => ts.Node} */ visit) {
    const first = at.qualifier ? firstName(at.qualifier) : null;
    const { literal } = /** @type {ts.LiteralTypeNode} */ (at.argument);
    const found = this.naming.find(this.file.fileName, /** @type {ts.StringLiteral} */ (literal).text, first && first.text);
    if (found === null) throw new NotFixed(`its type names ${first ? first.text : 'a module'}, which this module cannot name`);
    const args = at.typeArguments && at.typeArguments.map((it) => /** @type {ts.TypeNode} */ (visit(it)));
    const rest = first && at.qualifier ? entityText(at.qualifier).slice(first.text.length) : '';
    const local = first && !at.isTypeOf ? this.imported(found, ownName(first)) : null;
    if (local !== null) return ts.factory.createTypeReferenceNode(`${local}${rest}`, args);
    const name = first ? `.${found.name}${rest}` : '';
    return ts.factory.createTypeReferenceNode(`${at.isTypeOf ? 'typeof ' : ''}import(${JSON.stringify(found.source)})${name}`, args);
  }

  /** A name that stands for something else where it is written is refused. */
  visible(/** @type {ts.EntityName} */ entity, /** @type {ts.SymbolFlags} */ meaning, /** @type {ts.Node} */ node) {
    const first = firstName(entity);
    const { symbol } = first;
    if (!symbol || symbol.flags & ts.SymbolFlags.TypeParameter || !this.checker.resolveName) return;
    const { Namespace } = ts.SymbolFlags;
    const found = this.checker.resolveName(first.text, node, first === entity ? meaning : Namespace, false);
    const known = [found, found && this.naming.behind(found), found && this.checker.getExportSymbolOfSymbol(found)];
    if ([symbol, this.naming.behind(symbol)].some((it) => known.includes(it))) return;
    throw new NotFixed(`its type names ${first.text}, which is not exported where it is declared`);
  }

  /** Types of other modules by names that are imported, where these are free. */
  named(/** @type {ts.TypeNode} */ node, /** @type {ts.Node} */ place) {
    return rewritten(node, (at, visit, inside) => {
      if (ts.isImportTypeNode(at)) return this.importType(at, visit);
      if (ts.isTypeReferenceNode(at)) this.visible(at.typeName, ts.SymbolFlags.Type, place);
      if (ts.isTypeQueryNode(at) && (ts.isIdentifier(at.exprName) || ts.isQualifiedName(at.exprName))) this.visible(at.exprName, ts.SymbolFlags.Value, place);
      return inside(at);
    });
  }

  /**
   * Why the compiler has no type for a part of a value: a name in a circle, or a module that is not found, in the value or in what the type of a name there
   * comes of.
   *
   * @returns {string | undefined}
   */
  gapIn(/** @type {ts.Node} */ node, seen = new Set()) {
    if (ts.isCallExpression(node) && node.expression.kind === K.ImportKeyword) {
      const [source] = node.arguments;
      if (source && ts.isStringLiteralLike(source) && !this.checker.getSymbolAtLocation(source)) return `the module ${source.text}, which is not found`;
    }
    if (!ts.isIdentifier(node)) return ts.forEachChild(node, (it) => this.gapIn(it, seen));
    const found = this.checker.getSymbolAtLocation(node);
    const at = found && this.naming.behind(found).valueDeclaration;
    const { name, type } = at ? partsOf(at) : { name: undefined, type: undefined };
    if (!at || !name || seen.has(at) || seen.size > MOST_PARTS) return undefined;
    seen.add(at);
    if (this.circles.has(`${at.getSourceFile().fileName} ${name.getStart()}`)) return `${node.text}, which is in a circle`;
    const value = type ? undefined : valueOf(at);
    return value && this.gapIn(value, seen);
  }

  /** Refuses `any` that the compiler takes for what it has no type for. */
  refuseGap(/** @type {ts.Type} */ type, /** @type {ts.Node} */ place) {
    const value = valueOf(place);
    const gap = value && this.gapIn(value);
    if (gap) throw new NoType(`its type comes of ${gap}`);
    if (new Parts(this.checker, place).hasOwn(type)) throw new NoType('its type has itself in it: give it a name');
  }

  text(/** @type {ts.TypeNode | undefined} */ node, /** @type {ts.Node} */ place, /** @type {ts.Type} */ type) {
    if (!node) throw new NotFixed('the compiler has no way to write its type, as of `this` in an object');
    if (hasAny(node)) this.refuseGap(type, place);
    if (isLong(node)) throw new NotFixed(`its type has more than ${LONGEST} characters: give it a name`);
    const printer = ts.createPrinter({ removeComments: true });
    const text = printer.printNode(ts.EmitHint.Unspecified, this.named(node, place), this.file).replace(/\n\s*/g, ' ');
    if (text.length > LONGEST) throw new NotFixed(`its type has ${text.length} characters: give it a name`);
    return text;
  }

  /** The first text of a type that can be written. `nodeOf(flags)` is the type as the compiler writes it. */
  written(/** @type {ts.Type} */ type, /** @type {(flags: ts.NodeBuilderFlags) => ts.TypeNode | undefined} */ nodeOf, /** @type {ts.Node} */ place) {
    const [first, ...others] = WAYS.map((flags) => () => this.text(nodeOf(flags), place, type));
    const before = this.used;
    try {
      this.used = new Map(before);
      return first();
    } catch (error) {
      if (!(error instanceof NotFixed)) throw error;
      this.used = before;
      return others[0]();
    }
  }

  /** A type that the compiler does not know, or of which a part is not known or has no end, is none. */
  known(/** @type {ts.Type} */ type, /** @type {ts.Node} */ node) {
    if (type.intrinsicName === 'error') throw new NotFixed('its type comes of something that is not found');
    if (new Parts(this.checker, node).hasUnknown(type)) throw new NotFixed('a part of its type comes of something that is not found');
    if (new Parts(this.checker, node).hasCircle(type)) throw new NotFixed('its type has a class without a name in it, which names itself');
    return type;
  }

  /** The text of a type; `name` is that of the value, where it has one. */
  typeText(/** @type {ts.Type} */ type, /** @type {ts.Node} */ node, /** @type {string | null} */ name) {
    this.known(type, node);
    try {
      return this.written(type, (flags) => this.checker.typeToTypeNode(type, node, flags), node);
    } catch (error) {
      // What cannot be named or is too long may be the type of a value that has a name.
      if (!(error instanceof NotFixed) || error instanceof NoType || !name) throw error;
      return `typeof ${name}`;
    }
  }

  /** The return type of a function; a predicate stays one. */
  returnText(/** @type {ts.SignatureDeclaration} */ node) {
    const signature = /** @type {ts.Signature} */ (this.checker.getSignatureFromDeclaration(node));
    const type = this.known(this.checker.getReturnTypeOfSignature(signature), node);
    // Of a type of this class the compiler has no declaration where it is a part of another one.
    return this.written(type, (flags) => (this.checker.signatureToSignatureDeclaration(signature, K.FunctionDeclaration, node, flags) || { type: undefined }).type, node);
  }
}

// ---- edits: `{start, end, text}`

/** @returns {Edit} */
const insert = (/** @type {number} */ place, /** @type {string} */ text) => ({ start: place, end: place, text });

/** How the first line of a text ends. */
function lineBreakOf(/** @type {string} */ text) {
  const [found] = /\r\n?|\n/.exec(text) || ['\n'];
  return found;
}

/** @returns {Edit[]} */
function returnEdits(/** @type {TypeWriter} */ writer, /** @type {ts.Node} */ node) {
  const found = functionOf(node);
  if (!found || found.type) return [];
  const { text } = writer.file;
  const close = ts.skipTrivia(text, found.parameters.end);
  const type = writer.returnText(found);
  if (text[close] === ')') return [insert(close + 1, `: ${type}`)];
  const [parameter] = found.parameters;
  return [insert(parameter.getStart(writer.file), '('), insert(parameter.end, `): ${type}`)];
}

/** @returns {Edit[]} */
function typeEdits(/** @type {TypeWriter} */ writer, /** @type {ts.Node} */ node) {
  const { name, type: written, initializer, questionToken, exclamationToken } = partsOf(node);
  if (written || !name || ts.isObjectBindingPattern(name) || ts.isArrayBindingPattern(name) || ts.isFunctionLike(node)) return [];
  const type = writer.checker.getTypeAtLocation(node);
  if (ts.isParameter(node) && !node.initializer && type.flags & ts.TypeFlags.Any) throw new NotFixed('the compiler finds no type for it');
  const mark = questionToken || exclamationToken || name;
  return [insert(mark.end, `: ${writer.typeText(type, node, nameOf(initializer, writer.file))}`)];
}

/**
 * `export default VALUE;` as a variable with a type, which is exported behind it.
 *
 * @returns {Edit[]}
 */
function defaultEdits(/** @type {TypeWriter} */ writer, /** @type {number} */ start) {
  const { file, checker } = writer;
  const node = file.statements.flatMap((it) => (ts.isExportAssignment(it) ? it : [])).find((it) => !it.isExportEquals && it.getStart(file) <= start && start < it.end);
  if (!node) return [];
  let name = DEFAULT;
  for (let count = 1; writer.taken.has(name); count++) name = `${DEFAULT}_${count}`;
  const type = writer.typeText(checker.getWidenedType(checker.getTypeAtLocation(node.expression)), node, nameOf(node.expression, file));
  const before = { start: node.getStart(file), end: node.expression.getStart(file), text: `const ${name}: ${type} = ` };
  const isClosed = file.text[node.end - 1] === ';';
  return [before, insert(node.end, `${isClosed ? '' : ';'}${lineBreakOf(file.text)}export default ${name};`)];
}

/** The variable whose pattern has a name at a place. */
function patternAt(/** @type {ts.SourceFile} */ file, /** @type {number} */ start) {
  /** @type {ts.VariableDeclaration | null} */
  let found = null;
  const visit = (/** @type {ts.Node} */ node) => {
    if (node.pos > start || node.end <= start) return;
    if (ts.isVariableDeclaration(node) && ts.isBindingPattern(node.name) && node.name.end > start) found = node;
    ts.forEachChild(node, visit);
  };
  visit(file);
  return /** @type {ts.VariableDeclaration | null} */ (found);
}

/**
 * `{ a, b: c } = value` as `a: T = value.a, c: U = value.b`, where the value is a name and nothing else happens.
 *
 * @returns {Edit[]}
 */
function patternEdits(/** @type {TypeWriter} */ writer, /** @type {number} */ start) {
  const node = patternAt(writer.file, start);
  if (!node) return [];
  const elements = ts.isObjectBindingPattern(node.name) ? [...node.name.elements] : [];
  const isPlain = (/** @type {ts.BindingElement} */ it) => ts.isIdentifier(it.name) && !it.dotDotDotToken && !it.initializer && (!it.propertyName || ts.isIdentifier(it.propertyName));
  if (!elements.length || !elements.every(isPlain) || !node.initializer || !isName(node.initializer)) {
    throw new NotFixed('only plain properties of a value that has a name are taken apart');
  }
  const value = node.initializer.getText(writer.file);
  const texts = elements.map((it) => {
    const member = `${value}.${(it.propertyName || it.name).getText(writer.file)}`;
    const type = writer.typeText(writer.checker.getTypeAtLocation(it.name), it, member);
    return `${it.name.getText(writer.file)}: ${type} = ${member}`;
  });
  return [{ start: node.getStart(writer.file), end: node.end, text: texts.join(', ') }];
}

/** @returns {Edit[]} */
function editsAt(/** @type {TypeWriter} */ writer, /** @type {string} */ code, /** @type {number} */ start, /** @type {number} */ end) {
  if (code === 'unsupported-default-export-expr') return defaultEdits(writer, start);
  if (code === 'unsupported-destructuring') return patternEdits(writer, start);
  const node = declarationAt(writer.file, start, end);
  if (!node) return [];
  return code === 'missing-explicit-return-type' ? returnEdits(writer, node) : typeEdits(writer, node);
}

/** The edits for a message at some offsets of a file, and the names that they import, each with its module. */
function editsFor(/** @type {TypeWriter} */ writer, /** @type {string} */ code, /** @type {number} */ start, /** @type {number} */ end) {
  writer.used = new Map();
  return { edits: editsAt(writer, code, start, end), imports: writer.used };
}

// A comment that says something of the line below it, as `// eslint-disable-next-line`.
const OF_NEXT = /(^|[^\w])(ts-(ignore|expect-error)|disable-next-line|(fast-check|deno-lint|deno-fmt|prettier|biome)-ignore)(?!-)/;

/** Where a statement begins with the comments that say something of it. */
function startOf(/** @type {ts.Statement} */ statement, /** @type {ts.SourceFile} */ file) {
  let start = statement.getStart(file, true);
  for (const { pos, end } of (ts.getLeadingCommentRanges(file.text, statement.pos) || []).reverse()) {
    if (end <= start && OF_NEXT.test(file.text.slice(pos, end))) start = pos;
  }
  return start;
}

/** Whether a statement is one as `"use strict"`. */
function isDirective(/** @type {ts.Node} */ node) {
  return ts.isExpressionStatement(node) && ts.isStringLiteral(node.expression);
}

/**
 * The edit that imports names: behind the last import of a file, or the directives that it begins with, else before its first statement.
 *
 * @returns {Edit[]}
 */
function importEdits(/** @type {ts.SourceFile} */ file, /** @type {Map<string, Imported>} */ imports) {
  if (!imports.size) return [];
  /** @type {Map<string, string[]>} */
  const bySource = new Map();
  for (const [local, { source, name }] of imports) bySource.set(source, [...(bySource.get(source) || []), name === local ? local : `${name} as ${local}`]);
  const lines = [...bySource].map(([source, names]) => `import type { ${names.sort().join(', ')} } from "${source}";`);
  const lineBreak = lineBreakOf(file.text);
  const first = file.statements.findIndex((it) => !isDirective(it));
  const others = file.statements.filter((it, place) => ts.isImportDeclaration(it) || place < first);
  if (others.length) return [insert(others[others.length - 1].end, lines.map((it) => `${lineBreak}${it}`).join(''))];
  return [insert(startOf(file.statements[0], file), lines.map((it) => `${it}${lineBreak}`).join(''))];
}

/** A text with edits, from the last to the first. */
function applied(/** @type {string} */ text, /** @type {Edit[]} */ edits) {
  const sorted = edits.map((it, place) => ({ ...it, place })).sort((a, b) => b.start - a.start || b.place - a.place);
  return sorted.reduce((made, { start, end, text: now }) => made.slice(0, start) + now + made.slice(end), text);
}

module.exports = { NotFixed, TypeWriter, applied, editsFor, importEdits };
