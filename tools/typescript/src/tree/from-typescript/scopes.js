'use strict';
// Which scope a name is resolved in. Each scope has a number; 1 stands for names that nothing in the module binds.
//
// A name may be bound as a value, as a type or as a namespace, and is looked up as one of these: in `(string: T): string` the
// parameter is no type.

const { ts } = require('../../compiler/typescript.js');

const { SyntaxKind: K } = ts;

const VALUE = 1;
const TYPE = 2;
const NAMESPACE = 4;
const ANY = VALUE | TYPE | NAMESPACE;

const UNRESOLVED = 1;
const TOP = 2;

class Scope {
  constructor(/** @type {number} */ number, /** @type {Scope | null} */ parent) {
    this.number = number;
    this.parent = parent;
    /** @type {Map<string, number>} */
    this.names = new Map();
    /** @type {Scope[] | null} */
    this.joined = null;
    // Names whose type no skeleton says: of parameters with a default, which may be left out there, and in patterns, of which a skeleton has no names. Whether
    // an assertion says the type.
    /** @type {Map<string, boolean>} */
    this.unsaid = new Map();
  }

  bind(/** @type {string} */ name, /** @type {number} */ meaning) {
    this.names.set(name, (this.names.get(name) || 0) | meaning);
  }

  /** The number of the scope that binds the name with one of the meanings. */
  find(/** @type {string} */ name, /** @type {number} */ meaning) {
    /** @type {Scope | null} */
    let scope = this;
    for (; scope; scope = scope.parent) {
      const found = scope.numberOf(name, meaning);
      if (found) return found;
    }
    return UNRESOLVED;
  }

  /** The number of this scope, or of one that it is joined with, where that binds the name. */
  numberOf(/** @type {string} */ name, /** @type {number} */ meaning) {
    if ((this.names.get(name) || 0) & meaning) return this.number;
    for (const other of this.joined || []) {
      if ((other.names.get(name) || 0) & meaning) return other.number;
    }
    return 0;
  }
}

/** Calls back for each name of a pattern. */
function eachName(/** @type {ts.BindingName} */ name, /** @type {(name: ts.Identifier) => void} */ call) {
  if (ts.isIdentifier(name)) {
    call(name);
    return;
  }
  if (!name.elements) return;
  for (const element of name.elements) {
    if (ts.isBindingElement(element)) eachName(element.name, call);
  }
}

function bindPattern(/** @type {Scope} */ scope, /** @type {ts.BindingName} */ name) {
  eachName(name, (it) => scope.bind(it.text, VALUE));
}

/** @type {Map<ts.SyntaxKind, number>} */
const MEANINGS = new Map([
  [K.FunctionDeclaration, VALUE],
  [K.ClassDeclaration, VALUE | TYPE],
  [K.InterfaceDeclaration, TYPE],
  [K.TypeAliasDeclaration, TYPE],
  [K.EnumDeclaration, ANY],
  [K.ModuleDeclaration, VALUE | NAMESPACE],
  [K.ImportEqualsDeclaration, ANY],
]);

function bindImport(/** @type {Scope} */ scope, /** @type {ts.ImportDeclaration} */ statement) {
  const clause = statement.importClause;
  if (!clause) return;
  if (clause.name) scope.bind(clause.name.text, ANY);
  const bindings = clause.namedBindings;
  if (!bindings) return;
  if (ts.isNamespaceImport(bindings)) scope.bind(bindings.name.text, ANY);
  else for (const element of bindings.elements) scope.bind(element.name.text, ANY);
}

function isVar(/** @type {ts.VariableDeclarationList} */ list) {
  return (list.flags & ts.NodeFlags.BlockScoped) === 0;
}

/** Binds what a statement declares in its own block. `var` is bound by `bindVars`. */
function bindStatement(/** @type {Scope} */ scope, /** @type {ts.Statement} */ statement) {
  const meaning = MEANINGS.get(statement.kind);
  if (meaning) {
    const { name } = /** @type {{ name?: ts.Node }} */ (/** @type {unknown} */ (statement));
    if (name && ts.isIdentifier(name)) scope.bind(name.text, meaning);
  } else if (ts.isVariableStatement(statement)) {
    if (isVar(statement.declarationList)) return;
    for (const it of statement.declarationList.declarations) bindPattern(scope, it.name);
  } else if (ts.isImportDeclaration(statement)) {
    bindImport(scope, statement);
  } else if (ts.isLabeledStatement(statement)) {
    bindStatement(scope, statement.statement);
  }
}

/** Calls back for each list behind `var` of a statement, with what stands around it, however deep in blocks, but not in functions, classes or namespaces. */
function eachVarList(/** @type {ts.Node} */ node, /** @type {(list: ts.VariableDeclarationList, around: ts.Node) => void} */ call, around = node) {
  switch (node.kind) {
    case K.VariableDeclarationList:
      if (isVar(/** @type {ts.VariableDeclarationList} */ (node))) call(/** @type {ts.VariableDeclarationList} */ (node), around);
      return;
    case K.VariableStatement:
    case K.ForStatement:
    case K.ForInStatement:
    case K.ForOfStatement:
    case K.Block:
    case K.IfStatement:
    case K.DoStatement:
    case K.WhileStatement:
    case K.WithStatement:
    case K.SwitchStatement:
    case K.CaseBlock:
    case K.CaseClause:
    case K.DefaultClause:
    case K.LabeledStatement:
    case K.TryStatement:
    case K.CatchClause:
      ts.forEachChild(node, (child) => eachVarList(child, call, node));
      return;
    default:
  }
}

/** Binds each `var` of a statement. */
function bindVars(/** @type {Scope} */ scope, /** @type {ts.Node} */ node) {
  eachVarList(node, (list) => {
    for (const it of list.declarations) bindPattern(scope, it.name);
  });
}

function bindStatements(/** @type {Scope} */ scope, /** @type {readonly ts.Statement[]} */ statements) {
  for (const it of statements) bindStatement(scope, it);
}

/** Binds what a body declares: that of a module, a namespace or a function. */
function bindBody(/** @type {Scope} */ scope, /** @type {readonly ts.Statement[]} */ statements) {
  for (const it of statements) {
    bindStatement(scope, it);
    bindVars(scope, it);
  }
}

module.exports = { Scope, bindBody, bindPattern, bindStatements, eachName, eachVarList, isVar, VALUE, TYPE, NAMESPACE, ANY, UNRESOLVED, TOP };
