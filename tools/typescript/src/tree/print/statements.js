'use strict';
// Prints statements, declarations, classes, imports and exports.

const { variantOf } = require('../walk.js');
const t = require('./types.js');
const e = require('./expressions.js');
const { needsList } = require('../../tables/ambient.js');
const { writable } = require('../../skeleton/reserved.js');
const { isFrom } = require('../../compiler/typescript.js');

/** @typedef {import('./writer.js').Writer} Writer */

const { at, printBy } = t;
const { expression } = e;

/** @typedef {import('./printers').Named} Named */

// The word before the attributes of an import, as the compiler at hand reads it.
const attributesWord = () => (isFrom(5, 3) ? 'with' : 'assert');

// ---- statements

/** Statements in braces. */
function block(/** @type {Writer} */ w, /** @type {forms.BlockStmt} */ node) {
  at(w, node, () => inBraces(w, node.stmts || [], node.span, statement));
}

/**
 * A list in braces, each part on a line of its own; comments before the closing brace stay there.
 *
 * @template T
 * @param {Writer} w
 * @param {T[]} list
 * @param {forms.Span | null} span
 * @param {(w: Writer, it: T) => void} call
 */
function inBraces(w, list, span, call) {
  const [start, end] = span || [0, 0];
  const ends = end > 0 && w.hasLeading(end - 1);
  if (list.length === 0 && !ends) {
    w.write('{}');
    return;
  }
  w.write('{');
  w.trailing(start && start + 1);
  w.indented(() => {
    for (const it of list) {
      w.line();
      call(w, it);
    }
    if (ends) {
      w.line();
      w.leading(end - 1);
    }
  });
  w.line();
  w.write('}');
}

function nested(/** @type {Writer} */ w, /** @type {forms.Stmt} */ choice) {
  w.write(' ');
  statement(w, choice);
}

function head(/** @type {Writer} */ w, /** @type {string} */ word, /** @type {forms.Expr} */ test) {
  w.write(`${word} (`);
  expression(w, test);
  w.write(')');
}

function variables(/** @type {Writer} */ w, /** @type {forms.VarDecl | forms.UsingDecl} */ node) {
  const word = 'kind' in node ? node.kind.toLowerCase() : node.is_await ? 'await using' : 'using';
  const decls = node.decls || [];
  w.write(`${'declare' in node && node.declare ? 'declare ' : ''}${word} `);
  const isBroken = decls.length > 1 && w.isWide((line) => t.separated(line, decls, ', ', declarator));
  if (!isBroken) {
    t.separated(w, decls, ', ', declarator);
    return;
  }
  w.indented(() => {
    decls.forEach((it, place) => {
      if (place) w.write(',');
      if (place) w.line();
      declarator(w, it);
    });
  });
}

function declarator(/** @type {Writer} */ w, /** @type {forms.VarDeclarator} */ node) {
  at(w, node, () => {
    // `!` stands between the name and its type.
    if (node.definite && node.name.Ident) {
      t.ident(w, node.name.Ident.id);
      w.write('!');
      t.annotation(w, node.name.Ident.type_ann);
    } else {
      t.pattern(w, node.name);
    }
    if (!node.init) return;
    w.write(' = ');
    if (!w.asWritten && narrows(node)) w.write('{} as any');
    else expression(w, node.init);
  });
}

// Types that are no union, whatever their parts are.
const SINGLE = new Set(['TsArrayType', 'TsTupleType', 'TsFnOrConstructorType', 'TsTypeLit']);

/**
 * Whether a type may be a union by its form.
 *
 * @param {forms.TsType} choice
 * @returns {boolean}
 */
function mayBeUnion(choice) {
  const [variant, node] = variantOf(choice);
  if (variant === 'TsParenthesizedType') return mayBeUnion(node.type_ann);
  if (variant === 'TsKeywordType') return node.kind === 'TsBooleanKeyword';
  if (variant === 'TsLitType') return Boolean(node.lit.Tpl);
  return !SINGLE.has(variant) && !(variant === 'TsTypeOperator' && node.op !== 'KeyOf');
}

/** Whether a variable has the value `{} as never` of a skeleton, and a type of which a compiler would take that value for a part. */
function narrows(/** @type {forms.VarDeclarator} */ { name, init }) {
  const value = init && init.TsAs;
  const isMade = value && value.expr.Object && value.type_ann.TsKeywordType && value.type_ann.TsKeywordType.kind === 'TsNeverKeyword' && !value.span[0];
  return Boolean(isMade && name.Ident && name.Ident.type_ann && mayBeUnion(name.Ident.type_ann.type_ann));
}

function headVariables(/** @type {Writer} */ w, /** @type {forms.VarDeclOrExpr | forms.ForHead} */ choice) {
  const [variant, node] = variantOf(choice);
  if (variant === 'VarDecl' || variant === 'UsingDecl') at(w, node, () => variables(w, node));
  else if (variant === 'Pat') t.pattern(w, node);
  else expression(w, node);
}

function forStatement(/** @type {Writer} */ w, /** @type {forms.ForStmt} */ node) {
  w.write('for (');
  if (node.init) headVariables(w, node.init);
  w.write(node.test ? '; ' : ';');
  if (node.test) expression(w, node.test);
  w.write(node.update ? '; ' : ';');
  if (node.update) expression(w, node.update);
  w.write(')');
  nested(w, node.body);
}

function forEach(/** @type {string} */ word) {
  return (/** @type {Writer} */ w, /** @type {forms.ForInStmt & { is_await?: boolean }} */ node) => {
    w.write(node.is_await ? 'for await (' : 'for (');
    headVariables(w, node.left);
    w.write(` ${word} `);
    expression(w, node.right);
    w.write(')');
    nested(w, node.body);
  };
}

function ifStatement(/** @type {Writer} */ w, /** @type {forms.IfStmt} */ node) {
  head(w, 'if', node.test);
  nested(w, node.cons);
  if (!node.alt) return;
  w.write(' else');
  nested(w, node.alt);
}

function switchCase(/** @type {Writer} */ w, /** @type {forms.SwitchCase} */ node) {
  at(w, node, () => {
    if (node.test) {
      w.write('case ');
      expression(w, node.test);
      w.write(':');
    } else {
      w.write('default:');
    }
    w.indented(() => {
      for (const it of node.cons || []) {
        w.line();
        statement(w, it);
      }
    });
  });
}

function tryStatement(/** @type {Writer} */ w, /** @type {forms.TryStmt} */ node) {
  w.write('try ');
  block(w, node.block);
  const { handler } = node;
  if (handler) {
    at(w, handler, () => {
      w.write(' catch ');
      if (handler.param) {
        w.write('(');
        t.pattern(w, handler.param);
        w.write(') ');
      }
      block(w, handler.body);
    });
  }
  if (!node.finalizer) return;
  w.write(' finally ');
  block(w, node.finalizer);
}

/** What prints a statement that goes elsewhere. */
function jump(/** @type {string} */ word) {
  return (/** @type {Writer} */ w, /** @type {{ label?: forms.Ident | null, arg?: forms.Expr | null }} */ { label, arg }) => {
    w.write(word);
    if (label || arg) w.write(' ');
    if (label) t.ident(w, label);
    if (arg) expression(w, arg);
    w.write(';');
  };
}

/** @type {import('./printers').Printers<Omit<forms.StmtVariants, 'Decl' | 'Block'>>} */
const STATEMENTS = {
  Empty: (w) => w.write(';'),
  Debugger: (w) => w.write('debugger;'),
  With: (w, node) => {
    head(w, 'with', node.obj);
    nested(w, node.body);
  },
  Return: jump('return'),
  Throw: jump('throw'),
  Break: jump('break'),
  Continue: jump('continue'),
  Labeled: (w, node) => {
    t.ident(w, node.label);
    w.write(':');
    nested(w, node.body);
  },
  If: ifStatement,
  Switch: (w, node) => {
    head(w, 'switch', node.discriminant);
    w.write(' ');
    inBraces(w, node.cases || [], null, switchCase);
  },
  Try: tryStatement,
  While: (w, node) => {
    head(w, 'while', node.test);
    nested(w, node.body);
  },
  DoWhile: (w, node) => {
    w.write('do');
    nested(w, node.body);
    w.write(' ');
    head(w, 'while', node.test);
    w.write(';');
  },
  For: forStatement,
  ForIn: forEach('in'),
  ForOf: forEach('of'),
  Expr: (w, node) => {
    expression(w, node.expr);
    w.write(';');
  },
};

/** A statement. */
function statement(/** @type {Writer} */ w, /** @type {forms.Stmt} */ choice) {
  const [variant, node] = variantOf(choice);
  if (variant === 'Decl') declaration(w, node);
  else if (variant === 'Block') block(w, node);
  else at(w, node, () => printBy(STATEMENTS, w, variant, node));
}

// ---- classes

function accessibility(/** @type {{ accessibility?: forms.Accessibility | null }} */ node) {
  return node.accessibility ? `${node.accessibility.toLowerCase()} ` : '';
}

function words(/** @type {Writer} */ w, /** @type {forms.Part} */ node, /** @type {('declare' | 'is_static' | 'is_abstract' | 'is_override' | 'readonly')[]} */ list) {
  for (const it of list) if (node[it]) w.write(`${it.replace(/^is_/, '')} `);
}

function memberKey(/** @type {Writer} */ w, /** @type {forms.Key | forms.PropName | forms.PrivateName} */ key) {
  if ('Private' in key && key.Private) t.privateName(w, key.Private);
  else if ('Public' in key && key.Public) e.propName(w, key.Public);
  else if ('name' in key) t.privateName(w, key);
  else e.propName(w, /** @type {forms.PropName} */ (key));
}

function property(/** @type {Writer} */ w, /** @type {((forms.ClassProp | forms.PrivateProp) & { isAccessor?: undefined }) | (forms.AutoAccessor & { isAccessor: true, is_optional?: undefined })} */ node) {
  e.decorators(w, node.decorators, ' ');
  words(w, node, ['declare']);
  w.write(accessibility(node));
  words(w, node, ['is_static', 'is_abstract', 'is_override', 'readonly']);
  if (node.isAccessor) w.write('accessor ');
  memberKey(w, node.key);
  w.write(node.is_optional ? '?' : node.definite ? '!' : '');
  t.annotation(w, node.type_ann);
  if (node.value) {
    w.write(' = ');
    expression(w, node.value);
  }
  w.write(';');
}

const METHOD_WORDS = { Getter: 'get ', Setter: 'set ', Method: '' };

function method(/** @type {Writer} */ w, /** @type {forms.ClassMethod | forms.PrivateMethod} */ node) {
  e.decorators(w, node.function.decorators, ' ');
  w.write(accessibility(node));
  words(w, node, ['is_static', 'is_abstract', 'is_override']);
  if (node.function.is_async) w.write('async ');
  w.write(METHOD_WORDS[node.kind]);
  if (node.function.is_generator) w.write('*');
  memberKey(w, node.key);
  if (node.is_optional) w.write('?');
  e.signature(w, node.function);
  e.body(w, node.function.body);
}

function constructorParam(/** @type {Writer} */ w, /** @type {forms.ParamOrTsParamProp} */ choice) {
  const [variant, node] = variantOf(choice);
  if (variant === 'Param') {
    t.pattern(w, node);
    return;
  }
  at(w, node, () => {
    e.decorators(w, node.decorators, ' ');
    w.write(accessibility(node));
    words(w, node, ['is_override', 'readonly']);
    t.pattern(w, node.param);
  });
}

function constructor(/** @type {Writer} */ w, /** @type {forms.Constructor} */ node) {
  w.write(accessibility(node));
  e.propName(w, node.key);
  const params = node.params || [];
  const isWide = params.length > 1 && w.isWide((line) => t.separated(line, params, ', ', constructorParam));
  t.listed(w, params, '(', ')', isWide || t.hasComments(w, params), constructorParam, t.afterLast(params));
  e.body(w, node.body);
}

/** @type {import('./printers').Printers<forms.ClassMemberVariants>} */
const MEMBERS = {
  Constructor: constructor,
  Method: method,
  PrivateMethod: method,
  ClassProp: property,
  PrivateProp: property,
  AutoAccessor: (w, node) => property(w, { ...node, isAccessor: true }),
  TsIndexSignature: (w, node) => {
    t.indexSignature(w, node);
    w.write(';');
  },
  Empty: (w) => w.write(';'),
  StaticBlock: (w, node) => {
    w.write('static ');
    block(w, node.body);
  },
};

function member(/** @type {Writer} */ w, /** @type {forms.ClassMember} */ choice) {
  const [variant, node] = variantOf(choice);
  at(w, node, () => printBy(MEMBERS, w, variant, node));
}

function implemented(/** @type {Writer} */ w, /** @type {forms.TsExprWithTypeArgs} */ node) {
  at(w, node, () => {
    expression(w, node.expr);
    t.typeArguments(w, node.type_args);
  });
}

/** A class, within its comments: decorators, name, heritage and members. */
function classOf(/** @type {Writer} */ w, /** @type {forms.Ident | null | undefined} */ ident, /** @type {forms.Class} */ node, declare = false) {
  e.decorators(w, node.decorators, '\n');
  if (declare) w.write('declare ');
  if (node.is_abstract) w.write('abstract ');
  w.write('class');
  if (ident) {
    w.write(' ');
    t.ident(w, ident);
  }
  t.typeParameters(w, node.type_params);
  if (node.super_class) {
    w.write(' extends ');
    expression(w, node.super_class);
    t.typeArguments(w, node.super_type_params);
  }
  if (node.implements && node.implements.length) {
    w.write(' implements ');
    t.separated(w, node.implements, ', ', implemented);
  }
  w.write(' ');
  inBraces(w, node.body || [], node.span && [0, node.span[1]], member);
}

// ---- declarations

function functionDeclaration(/** @type {Writer} */ w, /** @type {forms.FnDecl} */ node) {
  at(w, node.function, () => {
    if (node.declare) w.write('declare ');
    e.functionOf(w, node.ident, node.function);
  });
}

function interfaceDeclaration(/** @type {Writer} */ w, /** @type {forms.TsInterfaceDecl} */ node) {
  if (node.declare) w.write('declare ');
  w.write('interface ');
  t.ident(w, node.id);
  t.typeParameters(w, node.type_params);
  if (node.extends && node.extends.length) {
    w.write(' extends ');
    t.separated(w, node.extends, ', ', implemented);
  }
  w.write(' ');
  at(w, node.body, () => t.memberLines(w, node.body.body || [], node.body));
}

function typeAlias(/** @type {Writer} */ w, /** @type {forms.TsTypeAliasDecl} */ node) {
  if (node.declare) w.write('declare ');
  w.write('type ');
  t.ident(w, node.id);
  t.typeParameters(w, node.type_params);
  w.write(' = ');
  t.type(w, node.type_ann);
  w.write(';');
}

function enumMember(/** @type {Writer} */ w, /** @type {forms.TsEnumMember} */ node) {
  at(w, node, () => {
    if (node.id.Ident) t.ident(w, node.id.Ident);
    else t.str(w, node.id.Str);
    if (node.init) {
      w.write(' = ');
      expression(w, node.init);
    }
    w.write(',');
  });
}

function enumDeclaration(/** @type {Writer} */ w, /** @type {forms.TsEnumDecl} */ node) {
  if (node.declare) w.write('declare ');
  w.write(node.is_const ? 'const enum ' : 'enum ');
  t.ident(w, node.id);
  w.write(' ');
  inBraces(w, node.members || [], [0, (node.span || [0, 0])[1]], enumMember);
}

/** @type {forms.ModuleItem} */
const EMPTY_LIST = { ModuleDecl: { ExportNamed: { span: [0, 0] } } };

function namespaceBody(/** @type {Writer} */ w, /** @type {forms.TsNamespaceBody} */ choice) {
  if (choice.TsNamespaceDecl) {
    w.write('.');
    t.ident(w, choice.TsNamespaceDecl.id);
    namespaceBody(w, choice.TsNamespaceDecl.body);
    return;
  }
  const { body = [], span } = choice.TsModuleBlock;
  const all = w.asWritten ? body : writable(body);
  const list = w.isAmbient && !w.asWritten && needsList(body, false) ? [...all, EMPTY_LIST] : all;
  w.write(' ');
  at(w, choice.TsModuleBlock, () => inBraces(w, list, span, item));
}

function namespaceDeclaration(/** @type {Writer} */ w, /** @type {forms.TsModuleDecl} */ node) {
  if (node.declare) w.write('declare ');
  if (!node.global) w.write(node.namespace ? 'namespace ' : 'module ');
  if (node.id.Str) t.str(w, node.id.Str);
  else t.ident(w, node.id.Ident);
  if (!node.body) {
    w.write(';');
    return;
  }
  const outer = w.isAmbient;
  w.isAmbient = outer || Boolean(node.declare);
  namespaceBody(w, node.body);
  w.isAmbient = outer;
}

function variableStatement(/** @type {Writer} */ w, /** @type {forms.VarDecl | forms.UsingDecl} */ node) {
  variables(w, node);
  w.write(';');
}

/** @type {import('./printers').Printers<Omit<forms.DeclVariants, 'Fn' | 'Class'>>} */
const DECLARATIONS = {
  Var: variableStatement,
  Using: variableStatement,
  TsInterface: interfaceDeclaration,
  TsTypeAlias: typeAlias,
  TsEnum: enumDeclaration,
  TsModule: namespaceDeclaration,
};

function declaration(/** @type {Writer} */ w, /** @type {forms.Decl} */ choice) {
  const [variant, node] = variantOf(choice);
  if (variant === 'Fn') functionDeclaration(w, node);
  else if (variant === 'Class') at(w, node.class, () => classOf(w, node.ident, node.class, node.declare));
  else at(w, node, () => printBy(DECLARATIONS, w, variant, node));
}

// ---- imports and exports

function moduleExportName(/** @type {Writer} */ w, /** @type {forms.ModuleExportName} */ choice) {
  if (choice.Str) t.str(w, choice.Str);
  else t.ident(w, choice.Ident);
}

function fromSource(/** @type {Writer} */ w, /** @type {{ src?: forms.Str | null, with?: forms.ObjectLit | null }} */ node) {
  if (node.src) {
    w.write(' from ');
    t.str(w, node.src);
  }
  if (node.with) {
    w.write(` ${attributesWord()} `);
    expression(w, { Object: node.with });
  }
  w.write(';');
}

function named(/** @type {Writer} */ w, /** @type {Named} */ node) {
  at(w, node, () => {
    if (node.is_type_only) w.write('type ');
    if (node.orig) {
      moduleExportName(w, node.orig);
      if (!node.exported) return;
      w.write(' as ');
      moduleExportName(w, node.exported);
      return;
    }
    if (node.imported) {
      moduleExportName(w, node.imported);
      w.write(' as ');
    }
    t.ident(w, node.local);
  });
}

/** Names in braces, each on a line of its own where the whole declaration is wide. */
function namedList(/** @type {Writer} */ w, /** @type {Named[]} */ list, /** @type {boolean} */ isWide) {
  if (isWide || t.hasComments(w, list)) t.listed(w, list, '{', '}', true, named);
  else {
    w.write('{ ');
    t.separated(w, list, ', ', named);
    w.write(' }');
  }
}

function importDeclaration(/** @type {Writer} */ w, /** @type {forms.ImportDecl} */ node) {
  const isWide = w.isWide((line) => importDeclaration(line, node));
  w.write('import ');
  if (node.type_only) w.write('type ');
  if (node.phase === 'defer') w.write('defer ');
  const list = node.specifiers || [];
  if (list.length === 0 && !node.type_only) {
    t.str(w, node.src);
    fromSource(w, { with: node.with });
    return;
  }
  /** @type {(() => void)[]} */
  const parts = [];
  for (const { Default: single, Namespace: whole } of list) {
    if (single) parts.push(() => at(w, single, () => t.ident(w, single.local)));
    if (whole) {
      parts.push(() => at(w, whole, () => {
        w.write('* as ');
        t.ident(w, whole.local);
      }));
    }
  }
  const names = list.flatMap((it) => it.Named || []);
  if (names.length) parts.push(() => namedList(w, names, isWide));
  if (list.length === 0) w.write('{}');
  t.separated(w, parts, ', ', (_, part) => part());
  fromSource(w, node);
}

function exportNamed(/** @type {Writer} */ w, /** @type {forms.NamedExport} */ node) {
  const isWide = w.isWide((line) => exportNamed(line, node));
  w.write('export ');
  if (node.type_only) w.write('type ');
  const list = node.specifiers || [];
  const [first] = list;
  if (first && first.Namespace) {
    at(w, first.Namespace, () => {
      w.write('* as ');
      moduleExportName(w, first.Namespace.name);
    });
  } else if (list.length === 0) w.write('{}');
  else namedList(w, list.flatMap((it) => it.Named || []), isWide);
  fromSource(w, node);
}

function importEquals(/** @type {Writer} */ w, /** @type {forms.TsImportEqualsDecl} */ node) {
  if (node.is_export) w.write('export ');
  w.write(node.is_type_only ? 'import type ' : 'import ');
  t.ident(w, node.id);
  w.write(' = ');
  const { TsEntityName, TsExternalModuleRef } = node.module_ref;
  if (TsEntityName) t.entity(w, TsEntityName);
  else {
    w.write('require(');
    t.str(w, TsExternalModuleRef.expr);
    w.write(')');
  }
  w.write(';');
}

function defaultDeclaration(/** @type {Writer} */ w, /** @type {forms.ExportDefaultDecl} */ node) {
  const [variant, decl] = variantOf(node.decl);
  if (variant === 'Class') e.decorators(w, decl.class.decorators, '\n');
  w.write('export default ');
  if (variant === 'Fn') at(w, decl.function, () => e.functionOf(w, decl.ident, decl.function));
  else if (variant === 'Class') at(w, decl.class, () => classOf(w, decl.ident, { ...decl.class, decorators: [] }));
  else at(w, decl, () => interfaceDeclaration(w, decl));
}

/** A declaration behind `export`. The decorators of a class stand before the word. */
function exportedDeclaration(/** @type {Writer} */ w, /** @type {forms.ExportDecl} */ node) {
  const { Class } = node.decl;
  if (Class) e.decorators(w, Class.class.decorators, '\n');
  w.write('export ');
  declaration(w, Class ? { Class: { ...Class, class: { ...Class.class, decorators: [] } } } : node.decl);
}

/** What prints an expression behind some words. */
function ended(/** @type {string} */ before) {
  return (/** @type {Writer} */ w, /** @type {{ expr: forms.Expr }} */ node) => {
    w.write(before);
    expression(w, node.expr);
    w.write(';');
  };
}

/** @type {import('./printers').Printers<forms.ModuleDeclVariants>} */
const MODULE_DECLARATIONS = {
  Import: importDeclaration,
  ExportDecl: exportedDeclaration,
  ExportNamed: exportNamed,
  ExportDefaultDecl: defaultDeclaration,
  ExportDefaultExpr: ended('export default '),
  ExportAll: (w, node) => {
    w.write(node.type_only ? 'export type *' : 'export *');
    fromSource(w, node);
  },
  TsImportEquals: importEquals,
  TsExportAssignment: ended('export = '),
  TsNamespaceExport: (w, node) => {
    w.write('export as namespace ');
    t.ident(w, node.id);
    w.write(';');
  },
};

/** An item of a module or a namespace. */
function item(/** @type {Writer} */ w, /** @type {forms.ModuleItem} */ choice) {
  if (choice.Stmt) {
    statement(w, choice.Stmt);
    return;
  }
  const [variant, node] = variantOf(choice.ModuleDecl);
  at(w, node, () => printBy(MODULE_DECLARATIONS, w, variant, node));
}

function items(/** @type {Writer} */ w, /** @type {forms.ModuleItem[]} */ list) {
  for (const it of list) {
    w.line();
    item(w, it);
  }
}

module.exports = { block, classOf, items };
