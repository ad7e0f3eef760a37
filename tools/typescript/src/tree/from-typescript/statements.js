'use strict';
// Statements and bodies.

const { hasModifier } = require('../../compiler/modifiers.js');
const { ts } = require('../../compiler/typescript.js');
const { converterOf, form, oneOf } = require('./converter.js');
const { bindPattern, bindBody, bindStatements, eachVarList, isVar } = require('./scopes.js');
const names = require('./names.js');
const { parts } = require('./parts.js');
const patterns = require('./patterns.js');
const types = require('./types.js');
const { expression } = require('./expressions.js');
const { assertedType } = require('../../tables/asserted-types.js');
const { partsOf } = require('../walk.js');
const { namingArgument, returnsOf } = require('./returns.js');

/** @typedef {import('./converter.js').Converter} Converter */
/** @typedef {import('./scopes.js').Scope} Scope */

const { SyntaxKind: K } = ts;

/** @typedef {ts.FunctionLikeDeclaration | ts.ClassStaticBlockDeclaration} Functional */
/** @typedef {ts.ExpressionStatement & { expression: ts.CallExpression }} SuperCall */

// ---- bodies

/** @returns {forms.Expr} */
function noValue(/** @type {Converter} */ c, /** @type {ts.Node} */ node) {
  return { Lit: { Null: { span: c.span(node) } } };
}

/**
 * Whether a tree has a name of a scope.
 *
 * @returns {boolean}
 */
function hasNameOf(/** @type {Scope} */ scope, /** @type {forms.Part} */ tree) {
  return (tree.sym !== undefined && tree.ctxt === scope.number) || partsOf(tree).some((it) => hasNameOf(scope, it));
}

/**
 * The value by which a body names its return type; null where the type has a name that the body declares, which no skeleton could say.
 *
 * @returns {forms.Expr | null}
 */
function namedBy(/** @type {Converter} */ c, /** @type {ts.Block} */ body, /** @type {ts.Expression} */ value) {
  return c.within((scope) => {
    bindBody(scope, body.statements);
    const made = expression(c, value);
    const type = assertedType(made);
    return type && hasNameOf(scope, type) ? null : made;
  });
}

/** @type {Map<ts.SyntaxKind, ts.SyntaxKind>} */
const WORD_OF = new Map([
  [K.StringLiteral, K.StringKeyword], [K.NoSubstitutionTemplateLiteral, K.StringKeyword], [K.TemplateExpression, K.StringKeyword],
  [K.NumericLiteral, K.NumberKeyword], [K.BigIntLiteral, K.BigIntKeyword], [K.TrueKeyword, K.BooleanKeyword], [K.FalseKeyword, K.BooleanKeyword],
]);

/** Whether the type of a getter is that of its setter, and another one than the value says by which its body names a type. */
function isOfSetter(/** @type {Converter} */ c, /** @type {Functional} */ node, /** @type {ts.Expression | undefined} */ naming) {
  if (!ts.isGetAccessorDeclaration(node) || !naming) return false;
  const isStatic = (/** @type {ts.AccessorDeclaration} */ it) => hasModifier(it, K.StaticKeyword);
  const keyOf = (/** @type {ts.AccessorDeclaration} */ it) => c.written(it.name);
  const setters = c.list.flatMap((it) => (ts.isSetAccessorDeclaration(it) ? it : []));
  const setter = setters.find((it) => keyOf(it) === keyOf(node) && isStatic(it) === isStatic(node));
  const type = setter && setter.parameters.length === 1 && setter.parameters[0].type;
  const named = /** @type {{ type?: ts.TypeNode }} */ (naming).type;
  return Boolean(type && type.kind !== WORD_OF.get(naming.kind) && !(named && c.written(named) === c.written(type)));
}

/**
 * What a body that is cut short keeps, where no return type is written: how it returns, and the value by which it names the type.
 *
 * @returns {forms.Stmt[]}
 */
function shortBody(/** @type {Converter} */ c, /** @type {Functional} */ node, /** @type {ts.Block} */ body) {
  if (body.statements.length === 0 || ts.isClassStaticBlockDeclaration(node) || ts.isSetAccessorDeclaration(node) || node.type) return [];
  const returns = returnsOf(body);
  if (returns.length === 0) return [{ Empty: { span: c.span(body.statements[0]) } }];
  const found = c.namesReturns ? namingArgument(node, body) : undefined;
  const naming = isOfSetter(c, node, found) ? undefined : found;
  const argument = (/** @type {ts.Expression} */ value) => (value === naming && namedBy(c, body, naming)) || c.noType(value);
  return returns.map((it) => ({
    Return: form({ span: c.span(it), arg: it.expression && argument(it.expression) }),
  }));
}

/**
 * The body of a function, whose scope is entered, or null.
 *
 * @returns {forms.BlockStmt | null}
 */
function functionBody(/** @type {Converter} */ c, /** @type {Functional} */ node) {
  return node.body ? bodyOf(c, node) : null;
}

/**
 * The body of a function that has one in braces.
 *
 * @returns {forms.BlockStmt}
 */
function bodyOf(/** @type {Converter} */ c, /** @type {Functional} */ node) {
  const body = /** @type {ts.Block} */ (node.body);
  if (c.short) return /** @type {forms.BlockStmt} */ (form({ stmts: shortBody(c, node, body) }));
  bindBody(c.scope, body.statements);
  return form({ span: c.span(body), ctxt: c.scope.number, stmts: statements(c, body.statements) });
}

/**
 * Whether a statement calls the constructor of the superclass.
 *
 * @param {ts.Statement} statement
 * @returns {statement is SuperCall}
 */
function isSuperCall(statement) {
  if (!ts.isExpressionStatement(statement)) return false;
  const call = statement.expression;
  return ts.isCallExpression(call) && call.expression.kind === K.SuperKeyword;
}

/**
 * A call of the superclass without the values of its arguments.
 *
 * @returns {forms.Stmt}
 */
function shortSuper(/** @type {Converter} */ c, /** @type {SuperCall} */ statement) {
  const call = statement.expression;
  const args = call.arguments.map((it) => {
    const isSpread = ts.isSpreadElement(it);
    const expr = noValue(c, it);
    return isSpread ? { spread: c.range(c.start(it), c.start(it) + 3), expr } : { expr };
  });
  const callee = { Super: { span: c.span(call.expression) } };
  const type_args = types.instantiation(c, call);
  return { Expr: { span: c.span(statement), expr: { Call: form({ span: c.span(call), callee, args, type_args }) } } };
}

/**
 * The body of a constructor. Cut short, it keeps its calls of the superclass.
 *
 * @returns {forms.BlockStmt | null}
 */
function constructorBody(/** @type {Converter} */ c, /** @type {ts.ConstructorDeclaration} */ node) {
  if (!c.short || !node.body) return functionBody(c, node);
  const stmts = node.body.statements.filter(isSuperCall).map((it) => shortSuper(c, it));
  return form({ span: c.span(node.body), stmts });
}

// ---- statements

/** @returns {forms.Stmt[]} */
function statements(/** @type {Converter} */ c, /** @type {readonly ts.Statement[]} */ list) {
  return c.each(list, (it) => statement(c, it));
}

/** @returns {forms.BlockStmt} */
function block(/** @type {Converter} */ c, /** @type {ts.Block} */ node) {
  return c.within((scope) => {
    bindStatements(scope, node.statements);
    return form({ span: c.span(node), ctxt: scope.number, stmts: statements(c, node.statements) });
  });
}

/** @returns {forms.VarDeclarator} */
function declarator(/** @type {Converter} */ c, /** @type {ts.VariableDeclaration} */ node, cuts = c.cutsValue(node)) {
  const name = patterns.pattern(c, node.name, false, node.type);
  const hides = cuts && node.type;
  const init = node.initializer && (hides ? noValue(c, node.initializer) : expression(c, node.initializer));
  return form({ span: c.span(node), name, init, definite: Boolean(node.exclamationToken) });
}

/** @type {Map<number, forms.VarDeclKind>} */
const KINDS = new Map([
  [0, 'Var'],
  [ts.NodeFlags.Let, 'Let'],
  [ts.NodeFlags.Const, 'Const'],
]);

/** A list of variables behind `for (`. */
function headVariables(/** @type {Converter} */ c, /** @type {ts.VariableDeclarationList} */ list) {
  const kind = KINDS.get(list.flags & ts.NodeFlags.BlockScoped);
  const decls = list.declarations.map((it) => declarator(c, it, false));
  if (kind) return { VarDecl: form({ span: c.span(list), kind, decls }) };
  const is_await = (list.flags & 6) === 6;
  return { UsingDecl: form({ span: c.span(list), is_await, decls }) };
}

/**
 * What stands behind `for (`: variables, or what a call makes of a value.
 *
 * @template R
 * @param {Converter} c
 * @param {ts.ForInitializer} node
 * @param {(value: ts.Expression) => R} call
 * @returns {R | { VarDecl: forms.VarDecl } | { UsingDecl: forms.UsingDecl }}
 */
function headOf(c, node, call) {
  return ts.isVariableDeclarationList(node) ? headVariables(c, node) : call(node);
}

/**
 * What a call makes in the scope of a loop.
 *
 * @template R
 * @param {Converter} c
 * @param {ts.ForStatement | ts.ForInOrOfStatement} node
 * @param {() => R} call
 */
function forScope(c, node, call) {
  return c.within((scope) => {
    const list = node.initializer;
    if (list && ts.isVariableDeclarationList(list) && !isVar(list)) for (const it of list.declarations) bindPattern(scope, it.name);
    return call();
  });
}

/** @returns {forms.ForStmt} */
function forStatement(/** @type {Converter} */ c, /** @type {ts.ForStatement} */ node) {
  return forScope(c, node, () => form(/** @type {forms.ForStmt} */ ({
    span: c.span(node),
    init: node.initializer && headOf(c, node.initializer, (value) => ({ Expr: expression(c, value) })),
    test: node.condition && expression(c, node.condition),
    update: node.incrementor && expression(c, node.incrementor),
    body: statement(c, node.statement),
  })));
}

/** @returns {forms.ForOfStmt} */
function forEach(/** @type {Converter} */ c, /** @type {ts.ForInOrOfStatement} */ node) {
  return forScope(c, node, () => form({
    span: c.span(node),
    is_await: ts.isForOfStatement(node) && Boolean(node.awaitModifier),
    left: headOf(c, node.initializer, (value) => ({ Pat: patterns.assigned(c, value) })),
    right: expression(c, node.expression),
    body: statement(c, node.statement),
  }));
}

/** @returns {forms.Stmt} */
function switchStatement(/** @type {Converter} */ c, /** @type {ts.SwitchStatement} */ node) {
  const discriminant = expression(c, node.expression);
  return c.within((scope) => {
    for (const it of node.caseBlock.clauses) bindStatements(scope, it.statements);
    const cases = node.caseBlock.clauses.map((it) => form({
      span: c.span(it),
      test: ts.isCaseClause(it) ? expression(c, it.expression) : null,
      cons: statements(c, it.statements),
    }));
    return { Switch: form({ span: c.span(node), discriminant, cases }) };
  });
}

/** @returns {forms.CatchClause | null} */
function catchClause(/** @type {Converter} */ c, /** @type {ts.CatchClause | undefined} */ node) {
  if (!node) return null;
  return c.within((scope) => {
    const declared = node.variableDeclaration;
    if (declared) bindPattern(scope, declared.name);
    const param = declared && patterns.pattern(c, declared.name, false, declared.type);
    return form({ span: c.span(node), param, body: block(c, node.block) });
  });
}

/** @returns {forms.Stmt} */
function tryStatement(/** @type {Converter} */ c, /** @type {ts.TryStatement} */ node) {
  return {
    Try: form({
      span: c.span(node),
      block: block(c, node.tryBlock),
      handler: catchClause(c, node.catchClause),
      finalizer: node.finallyBlock && block(c, node.finallyBlock),
    }),
  };
}

function jump(/** @type {'Break' | 'Continue'} */ variant) {
  return (/** @type {Converter} */ c, /** @type {ts.BreakOrContinueStatement} */ node) => (
    oneOf(variant, form({ span: c.span(node), label: node.label && names.plain(c, node.label) })));
}

function loop(/** @type {'While' | 'DoWhile'} */ variant) {
  return (/** @type {Converter} */ c, /** @type {ts.WhileStatement | ts.DoStatement} */ node) => (
    oneOf(variant, { span: c.span(node), test: expression(c, node.expression), body: statement(c, node.statement) }));
}

/** @type {import('./nodes').Converters<forms.Stmt>} */
const STATEMENTS = {
  [K.Block]: (c, node) => ({ Block: block(c, node) }),
  [K.EmptyStatement]: (c, node) => ({ Empty: { span: c.span(node) } }),
  [K.DebuggerStatement]: (c, node) => ({ Debugger: { span: c.span(node) } }),
  [K.WithStatement]: (c, node) => ({
    With: { span: c.span(node), obj: expression(c, node.expression), body: statement(c, node.statement) },
  }),
  [K.ReturnStatement]: (c, node) => ({
    Return: form({ span: c.span(node), arg: node.expression && expression(c, node.expression) }),
  }),
  [K.LabeledStatement]: (c, node) => ({
    Labeled: { span: c.span(node), label: names.plain(c, node.label), body: statement(c, node.statement) },
  }),
  [K.BreakStatement]: jump('Break'),
  [K.ContinueStatement]: jump('Continue'),
  [K.IfStatement]: (c, node) => ({
    If: form({
      span: c.span(node),
      test: expression(c, node.expression),
      cons: statement(c, node.thenStatement),
      alt: node.elseStatement && statement(c, node.elseStatement),
    }),
  }),
  [K.SwitchStatement]: switchStatement,
  [K.ThrowStatement]: (c, node) => ({ Throw: { span: c.span(node), arg: expression(c, node.expression) } }),
  [K.TryStatement]: tryStatement,
  [K.WhileStatement]: loop('While'),
  [K.DoStatement]: loop('DoWhile'),
  [K.ForStatement]: (c, node) => ({ For: forStatement(c, node) }),
  [K.ForInStatement]: (c, node) => ({ ForIn: forEach(c, node) }),
  [K.ForOfStatement]: (c, node) => ({ ForOf: forEach(c, node) }),
  [K.ExpressionStatement]: (c, node) => {
    c.assigned = ts.isBinaryExpression(node.expression) ? node.expression.left : null;
    return { Expr: { span: c.span(node), expr: expression(c, node.expression) } };
  },
};

/** Whether a statement may declare a property of what it assigns to: `object.name = value;`. */
function isExpando(/** @type {ts.Node} */ node) {
  if (!ts.isExpressionStatement(node)) return false;
  const { expression: value } = node;
  if (!ts.isBinaryExpression(value) || value.operatorToken.kind !== K.EqualsToken) return false;
  const { left } = value;
  if (ts.isElementAccessExpression(left)) return ts.isIdentifier(left.expression) && isNameText(left.argumentExpression);
  return ts.isPropertyAccessExpression(left) && ts.isIdentifier(left.expression) && ts.isIdentifier(left.name);
}

/** Whether a value is a text that may stand behind a dot. */
function isNameText(/** @type {ts.Expression} */ node) {
  return ts.isStringLiteralLike(node) && ts.isIdentifierText(node.text, ts.ScriptTarget.ESNext);
}

/**
 * Each `var` in the blocks of a statement, which the body around it declares; what a loop gives has no value here.
 *
 * @returns {forms.Stmt}
 */
function hoisted(/** @type {Converter} */ c, /** @type {ts.Statement} */ node) {
  /** @type {forms.VarDeclarator[]} */
  const decls = [];
  eachVarList(node, (list, around) => {
    const isGiven = ts.isForInStatement(around) || ts.isForOfStatement(around);
    const made = list.declarations.map((it) => declarator(c, it));
    decls.push(...made.map((it) => (isGiven ? { ...it, init: c.hidden(list) } : it)));
  });
  return decls.length ? { Decl: { Var: { span: c.span(node), kind: 'Var', decls } } } : { Empty: { span: c.span(node) } };
}

/**
 * A statement. Cut short, one that declares and assigns nothing is an empty one.
 *
 * @returns {forms.Stmt}
 */
function statement(/** @type {Converter} */ c, /** @type {ts.Statement} */ node) {
  const convert = converterOf(STATEMENTS, node);
  if (!convert) {
    const decl = parts.declaration(c, node);
    if (decl) return { Decl: decl };
    c.unknown(node, 'a statement');
    return { Empty: { span: c.span(node) } };
  }
  return c.short && !isExpando(node) ? hoisted(c, node) : convert(c, node);
}

module.exports = { bodyOf, functionBody, constructorBody, statement, declarator, KINDS };
