'use strict';
// Declaration files in the form in which two versions of a package are compared: what no user of a class can reach is left out, and beside each type stand its
// methods as properties, of which the compiler compares parameters strictly.
const { rewritten } = require('../compiler/rewrite.js');
const { hasModifier, modifiersOf } = require('../compiler/modifiers.js');
const { whole: ts } = require('../compiler/typescript.js');

const { SyntaxKind: K, factory } = ts;
const PRINTER = ts.createPrinter({ removeComments: true });

const isPrivate = (/** @type {ts.Node} */ node) => hasModifier(node, K.PrivateKeyword) || ts.isPrivateIdentifier(nameOf(node) || node);
/** @type {(node: ts.Node) => node is ts.MethodDeclaration | ts.MethodSignature} */
const isMethod = (node) => ts.isMethodDeclaration(node) || ts.isMethodSignature(node);
/** The name of a declaration; undefined of what has none. */
const nameOf = (/** @type {ts.Node} */ node) => /** @type {{ name?: ts.Node }} */ (node).name;
// What stands behind the name of a declaration in that of its methods.
const STRICT = '$strict';
const ANY = factory.createKeywordTypeNode(K.AnyKeyword);

/** @type {Set<ts.SyntaxKind>} */
const UNSHOWN = new Set([K.ProtectedKeyword, K.AsyncKeyword, K.OverrideKeyword, K.PublicKeyword]);

/** The modifiers of a member that count for its users: a protected one is one that subclasses use. */
function shownModifiers(/** @type {ts.Node} */ node) {
  return modifiersOf(node).filter((it) => !UNSHOWN.has(it.kind));
}

/**
 * A member of a class as its users and subclasses see it; none of a private one.
 *
 * @returns {ts.ClassElement[]}
 */
function shownMember(/** @type {ts.ClassElement} */ node) {
  if (ts.isConstructorDeclaration(node)) return [node];
  if (isPrivate(node)) return [];
  const modifiers = shownModifiers(node);
  if (ts.isPropertyDeclaration(node)) return [factory.updatePropertyDeclaration(node, modifiers, node.name, node.questionToken, node.type, undefined)];
  if (ts.isMethodDeclaration(node)) {
    const { asteriskToken, name, questionToken, typeParameters, parameters, type, body } = node;
    return [factory.updateMethodDeclaration(node, modifiers, asteriskToken, name, questionToken, typeParameters, parameters, type, body)];
  }
  if (ts.isGetAccessorDeclaration(node)) return [factory.updateGetAccessorDeclaration(node, modifiers, node.name, node.parameters, node.type, node.body)];
  if (ts.isSetAccessorDeclaration(node)) return [factory.updateSetAccessorDeclaration(node, modifiers, node.name, node.parameters, node.body)];
  return [node];
}

/** A class without what its users cannot reach. */
function classOf(/** @type {ts.ClassDeclaration} */ node) {
  const { modifiers, name, typeParameters, heritageClauses } = node;
  return factory.updateClassDeclaration(node, modifiers, name, typeParameters, heritageClauses, [...node.members].flatMap(shownMember));
}

// ---- methods of which the compiler compares parameters strictly, as it does not at methods

/** The type of all overloads of a method: of one a function type, of several an object with a call signature each. */
function methodType(/** @type {(ts.MethodDeclaration | ts.MethodSignature)[]} */ overloads) {
  const [first] = overloads;
  if (overloads.length === 1) return factory.createFunctionTypeNode(first.typeParameters, first.parameters, first.type || ANY);
  return factory.createTypeLiteralNode(overloads.map((it) => factory.createCallSignature(it.typeParameters, it.parameters, it.type || ANY)));
}

const VOID = factory.createKeywordTypeNode(K.VoidKeyword);

/**
 * The constructors and setters of a class as properties, whose parameters the compiler compares strictly too.
 *
 * @returns {ts.PropertySignature[]}
 */
function writersOf(/** @type {ts.ClassDeclaration} */ node) {
  const constructors = node.members.filter(ts.isConstructorDeclaration).filter((it) => !hasModifier(it, K.PrivateKeyword) && !hasModifier(it, K.ProtectedKeyword));
  const setters = node.members.filter(ts.isSetAccessorDeclaration).filter((it) => !isPrivate(it) && !hasModifier(it, K.StaticKeyword));
  const made = constructors.map((it) => factory.createCallSignature(undefined, it.parameters.map(plainParameter), VOID));
  const type = made.length === 1 ? factory.createFunctionTypeNode(undefined, made[0].parameters, VOID) : factory.createTypeLiteralNode(made);
  return [
    ...(made.length ? [factory.createPropertySignature(undefined, factory.createStringLiteral('new()'), undefined, type)] : []),
    ...setters.map((it) => factory.createPropertySignature(undefined, factory.createStringLiteral(`set ${it.name.getText()}`), undefined, factory.createFunctionTypeNode(undefined, it.parameters, VOID))),
  ];
}

/** A parameter without what makes a property of it. */
function plainParameter(/** @type {ts.ParameterDeclaration} */ { dotDotDotToken, name, questionToken, type }) {
  return factory.createParameterDeclaration(undefined, dotDotDotToken, name, questionToken, type);
}

/** The methods of a class, an interface or an object type as properties of their own types. */
function methodsOf(/** @type {ts.ClassDeclaration | ts.InterfaceDeclaration | ts.TypeLiteralNode} */ node) {
  /** @type {Map<string, (ts.MethodDeclaration | ts.MethodSignature)[]>} */
  const overloads = new Map();
  for (const it of node.members) {
    if (!isMethod(it) || isPrivate(it) || hasModifier(it, K.StaticKeyword)) continue;
    const name = it.name.getText();
    overloads.set(name, [...(overloads.get(name) || []), it]);
  }
  const methods = [...overloads.values()].map((all) => factory.createPropertySignature(undefined, all[0].name, all[0].questionToken, methodType(all)));
  return ts.isClassDeclaration(node) ? [...methods, ...writersOf(node)] : methods;
}

/** The interface that has the methods of a declaration strictly, under its name and `STRICT`; null where none is. */
function strictOf(/** @type {ts.Statement} */ node) {
  if (!(ts.isClassDeclaration(node) || ts.isInterfaceDeclaration(node) || ts.isTypeAliasDeclaration(node)) || !node.name) return null;
  const holder = ts.isTypeAliasDeclaration(node) ? node.type : node;
  if (!(ts.isClassDeclaration(holder) || ts.isInterfaceDeclaration(holder) || ts.isTypeLiteralNode(holder))) return null;
  const exported = [factory.createModifier(K.ExportKeyword)];
  return factory.createInterfaceDeclaration(exported, `${node.name.text}${STRICT}`, node.typeParameters, undefined, methodsOf(holder));
}

/** A statement at the top of a file, exported: another module may have to import it. */
function exported(/** @type {ts.Statement} */ node) {
  const name = nameOf(node);
  const isNamed = ts.isVariableStatement(node) || (name && ts.isIdentifier(name) && name.text !== 'global');
  if (!isNamed || hasModifier(node, K.ExportKeyword)) return node;
  return withModifiers(node, [factory.createModifier(K.ExportKeyword), .../** @type {readonly ts.Modifier[]} */ (modifiersOf(node))]);
}

/**
 * A declaration with other modifiers; another statement as it is.
 *
 * @param {ts.Statement} node
 * @param {ts.Modifier[]} modifiers
 * @returns {ts.Statement}
 */
function withModifiers(node, modifiers) {
  if (ts.isClassDeclaration(node)) return factory.updateClassDeclaration(node, modifiers, node.name, node.typeParameters, node.heritageClauses, node.members);
  if (ts.isInterfaceDeclaration(node)) return factory.updateInterfaceDeclaration(node, modifiers, node.name, node.typeParameters, node.heritageClauses, node.members);
  if (ts.isTypeAliasDeclaration(node)) return factory.updateTypeAliasDeclaration(node, modifiers, node.name, node.typeParameters, node.type);
  if (ts.isEnumDeclaration(node)) return factory.updateEnumDeclaration(node, modifiers, node.name, node.members);
  if (ts.isFunctionDeclaration(node)) {
    const { asteriskToken, name, typeParameters, parameters, type, body } = node;
    return factory.updateFunctionDeclaration(node, modifiers, asteriskToken, name, typeParameters, parameters, type, body);
  }
  if (ts.isModuleDeclaration(node)) return factory.updateModuleDeclaration(node, modifiers, node.name, node.body);
  return ts.isVariableStatement(node) ? factory.updateVariableStatement(node, modifiers, node.declarationList) : node;
}

/**
 * Statements, each with what it has strictly behind it.
 *
 * @returns {ts.Statement[]}
 */
function withStrict(/** @type {readonly ts.Statement[]} */ statements) {
  return statements.flatMap((it) => [it, strictOf(it) || []].flat());
}

/** Whether a name in brackets is one of a package's own symbols, and no `Symbol.iterator`. */
/** @type {(node: ts.Node) => boolean} */
const isOwnSymbol = (node) => ts.isComputedPropertyName(node) && ts.isEntityNameExpression(node.expression) && !/^Symbol\b/.test(node.expression.getText());

function rewrite(/** @type {ts.Node} */ at, /** @type {(at: ts.Node) => ts.Node} */ visit, /** @type {(at: ts.Node) => ts.Node} */ inside) {
  // A symbol of one version is none of the other.
  if (isOwnSymbol(at)) return factory.createStringLiteral(at.getText());
  if (ts.isTypeOperatorNode(at) && at.operator === K.UniqueKeyword) return factory.createKeywordTypeNode(K.SymbolKeyword);
  if (ts.isClassDeclaration(at)) return inside(classOf(at));
  if (ts.isModuleBlock(at)) return inside(factory.updateModuleBlock(at, withStrict(at.statements)));
  if (ts.isSourceFile(at)) return inside(factory.updateSourceFile(at, withStrict(at.statements).map(exported)));
  return inside(at);
}

/** The text of a declaration file in the form that is compared. */
function comparable(/** @type {string} */ name, /** @type {string} */ text) {
  const file = ts.createSourceFile(name, text, ts.ScriptTarget.ESNext, true);
  return PRINTER.printFile(rewritten(file, rewrite));
}

module.exports = { STRICT, comparable };
