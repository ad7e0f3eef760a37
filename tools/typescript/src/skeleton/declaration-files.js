'use strict';
// Declaration files of skeletons: the same declarations without bodies and values. No type is inferred: a value that stays has one where its form says the type.

const { blockOf, isMade, scopesOf } = require('./value-scopes.js');
const { CONSTANT, KEPT, WIDE, Untold, ValueTypes, annotated, isUnique, keyword, literalOf, madeLiteral } = require('./value-types.js');
const { placedIn, shadowedMessages } = require('./messages.js');
const { enumValues } = require('./enum-values.js');
const { saysExports } = require('../tables/ambient.js');
const { keyName } = require('../tables/members.js');
const { withPartial } = require('../program/preview.js');
const { variantOf } = require('../tree/walk.js');
const { writable } = require('./reserved.js');
const { byName, printedModule, shown } = require('./write.js');
const { isFrom } = require('../compiler/typescript.js');
const { mentioned } = require('./modules.js');

/** @typedef {import('../program/types').World} World */
/** @typedef {import('../program/types').SourceFile} SourceFile */
/** @typedef {import('./types').Holder} Holder */
/** @typedef {import('./value-scopes.js').Scope} Scope */

// Whether the compiler at hand declares a member under a key that may be any text.
const INDEXED = isFrom(5, 7);
const RELATIVE = /^\.{1,2}\//;
/** @type {forms.Span} */
const NONE = [0, 0];
/** @type {{ body?: forms.ModuleItem[] }} */
const NO_BLOCK = {};
/** @type {forms.ModuleItem} */
const EMPTY_LIST = { ModuleDecl: { ExportNamed: { span: NONE, specifiers: [] } } };

/** How a declaration file names a module: by the name that its JavaScript has. */
function sourceText(/** @type {string} */ text) {
  return RELATIVE.test(text) ? text.replace(/(\.d)?\.([cm]?)tsx?$/, '.$2js') : text;
}

/**
 * The sources of a tree, as a declaration file names them.
 *
 * @template T
 * @param {T} node
 * @returns {T}
 */
function withSources(node) {
  if (node === null || typeof node !== 'object') return node;
  if (Array.isArray(node)) return /** @type {T} */ (/** @type {unknown} */ (node.map(withSources)));
  const made = /** @type {forms.Part} */ (Object.fromEntries(Object.entries(node).map(([key, it]) => [key, withSources(it)])));
  for (const source of [made.src, made.arg]) {
    if (source && 'value' in source && sourceText(source.value) !== source.value) Object.assign(source, { value: sourceText(source.value), raw: null });
  }
  return /** @type {T} */ (made);
}

/** The name of a member under a number, however the number is written; null of another key. */
function numericName(/** @type {forms.Part | undefined} */ key) {
  const { Num: number, Computed: computed } = /** @type {Partial<forms.PropNameVariants>} */ (key || {});
  const held = number || (computed && computed.expr.Lit && computed.expr.Lit.Num);
  return held && held.raw ? String(Number(held.raw.replace(/_/g, ''))) : null;
}

/** The name of a member or a function, with what tells it from others of that name. */
function keyOf(/** @type {forms.Part} */ { key, is_static, kind }) {
  const name = numericName(key) || (key ? keyName(/** @type {forms.Part} */ (key)) : null);
  const written = name === null ? JSON.stringify(key, (part, it) => (part === 'span' ? undefined : it)) : JSON.stringify(name);
  return `${written} ${Boolean(is_static)} ${kind}`;
}

/**
 * A list without the implementations that stand behind overloads. `asked(it)` is a function's name with its node, or null of anything else.
 *
 * @template T
 * @param {T[]} list
 * @param {(it: T) => { name: string, body?: forms.BlockStmt | null } | null} asked
 */
function withoutImplementations(list, asked) {
  const overloaded = new Set();
  return list.filter((it) => {
    const found = asked(it);
    if (!found) return true;
    if (!found.body) overloaded.add(found.name);
    return !found.body || !overloaded.has(found.name);
  });
}

/** The name and the body of a function that an item declares. */
function functionOf(/** @type {forms.ModuleItem} */ item) {
  const { ExportDecl: exported, ExportDefaultDecl: asDefault } = /** @type {Partial<forms.ModuleDeclVariants>} */ (item.ModuleDecl || {});
  const decl = exported ? exported.decl : item.Stmt && item.Stmt.Decl;
  if (asDefault && asDefault.decl.Fn) return { name: 'export default', body: asDefault.decl.Fn.function.body };
  return decl && decl.Fn ? { name: decl.Fn.ident.sym, body: decl.Fn.function.body } : null;
}

/** The name and the body of a method or a constructor. */
function methodOf(/** @type {forms.ClassMember} */ { Method: method, Constructor: made }) {
  if (made) return { name: 'constructor', body: made.body };
  return method ? { name: keyOf(method), body: method.function.body } : null;
}

/** A type, which is `symbol` in place of a `unique symbol` that the program wrote for what may not have it. */
function ownSymbol(/** @type {forms.TsTypeAnn | null | undefined} */ type_ann, /** @type {boolean} */ mayHave) {
  const isMadeSymbol = type_ann && !type_ann.span[0] && isUnique(type_ann.type_ann);
  return isMadeSymbol && !mayHave ? annotated(keyword('Symbol')) : type_ann;
}

/**
 * A member without the word `public`.
 *
 * @template {{ accessibility?: forms.Accessibility | null }} T
 * @param {T} node
 * @returns {T}
 */
const plain = (node) => (node.accessibility === 'Public' ? { ...node, accessibility: null } : node);

/** Makes the declarations of one module. Those of a declaration file stand as they are written, but for a class that is exported by default. */
class Declarations {
  constructor(/** @type {Scope} */ scope, /** @type {{ isWritten?: boolean, isInside?: boolean, untold?: Untold[] }} */ { isWritten = false, isInside = false, untold = [] }) {
    this.scope = scope;
    this.isWritten = isWritten;
    this.isInside = isInside;
    this.untold = untold;
    this.types = new ValueTypes(scope);
  }

  /** The declarations in a namespace of these items, in all of its blocks, where `declare` is not written again. */
  inside(/** @type {forms.ModuleItem[]} */ items) {
    return new Declarations(this.scope.inside(items), { isInside: true, untold: this.untold });
  }

  /**
   * What a call makes; null where a value has no type here, which is kept.
   *
   * @template T
   * @param {() => T} call
   */
  attempt(call) {
    try {
      return call();
    } catch (error) {
      if (!(error instanceof Untold)) throw error;
      this.untold.push(error);
      return null;
    }
  }

  items(/** @type {forms.ModuleItem[]} */ list) {
    return withoutImplementations(writable(list), functionOf).flatMap((it) => this.item(it));
  }

  /**
   * What a declaration file has of an item.
   *
   * @param {forms.ModuleItem} item
   * @returns {forms.ModuleItem[]}
   */
  item(item) {
    if (item.Stmt) {
      const decl = item.Stmt.Decl && this.declaration(item.Stmt.Decl);
      return decl ? [{ Stmt: { Decl: decl } }] : [];
    }
    const { ExportDecl: exported, ExportDefaultDecl: asDefault, ExportDefaultExpr: value } = item.ModuleDecl;
    if (exported) {
      const decl = this.declaration(exported.decl);
      return decl ? [{ ModuleDecl: { ExportDecl: { ...exported, decl } } }] : [];
    }
    if (asDefault) return [{ ModuleDecl: { ExportDefaultDecl: { ...asDefault, decl: this.defaultDeclaration(asDefault.decl) } } }];
    return value ? this.defaultValue(item, value) : [item];
  }

  declaration(/** @type {forms.Decl} */ decl) {
    return this.attempt(() => this.declared(decl));
  }

  /** @returns {forms.Decl} */
  declared(/** @type {forms.Decl} */ decl) {
    if (decl.Var) return { Var: this.variable(decl.Var) };
    if (decl.Fn) return { Fn: this.fn(decl.Fn) };
    if (decl.Class) return { Class: this.class(decl.Class) };
    if (decl.TsEnum) return { TsEnum: this.enum(decl.TsEnum) };
    return decl.TsModule ? { TsModule: this.namespace(decl.TsModule) } : decl;
  }

  /** @returns {forms.DefaultDecl} */
  defaultDeclaration(/** @type {forms.DefaultDecl} */ decl) {
    if (decl.Fn) return { Fn: { ...decl.Fn, function: this.signature(decl.Fn.function) } };
    return decl.Class ? { Class: { ...decl.Class, class: this.classOf(decl.Class.class) } } : decl;
  }

  /**
   * A value that is exported by default: a name stays, another value has a constant of its own.
   *
   * @returns {forms.ModuleItem[]}
   */
  defaultValue(/** @type {forms.ModuleItem} */ item, /** @type {forms.ExportDefaultExpr} */ { span, expr }) {
    if (expr.Ident) return [item];
    /** @type {forms.Ident} */
    const id = { span: NONE, ctxt: 0, sym: this.freeName('_default'), optional: false };
    const type_ann = this.attempt(() => annotated(this.types.of(expr, KEPT)));
    if (!type_ann) return [];
    /** @type {forms.Decl} */
    const variable = { Var: { span, kind: 'Const', declare: true, decls: [{ span: NONE, name: { Ident: { id, type_ann } }, init: null, definite: false }] } };
    return [{ Stmt: { Decl: variable } }, { ModuleDecl: { ExportDefaultExpr: { span: NONE, expr: { Ident: id } } } }];
  }

  freeName(/** @type {string} */ name) {
    let made = name;
    for (let count = 1; this.scope.isTaken(made); count++) made = `${name}_${count}`;
    return made;
  }

  // ---- declarations

  variable(/** @type {forms.VarDecl} */ node) {
    if (node.declare || this.isWritten) return node;
    const holder = node.kind === 'Const' ? CONSTANT : WIDE;
    return { ...node, declare: !this.isInside, decls: (node.decls || []).flatMap((it) => this.attempt(() => this.declarator(it, holder)) || []) };
  }

  declarator(/** @type {forms.VarDeclarator} */ node, /** @type {Holder} */ holder) {
    const name = /** @type {forms.BindingIdent} */ (node.name.Ident);
    const { value, type_ann } = this.held(node.init, ownSymbol(name.type_ann, holder === CONSTANT), holder);
    return { ...node, definite: false, name: { Ident: { ...name, type_ann } }, init: value };
  }

  /**
   * What holds a value, with the written type or that of the value; a constant keeps a literal, as the compiler's own declarations do.
   *
   * @returns {{ type_ann: forms.TsTypeAnn | null, value: forms.Expr | null }}
   */
  held(/** @type {forms.Expr | null | undefined} */ value, /** @type {forms.TsTypeAnn | null | undefined} */ type_ann, /** @type {Holder} */ holder) {
    const literal = holder === CONSTANT && this.literal(value, type_ann);
    if (literal) return { type_ann: null, value: { Lit: /** @type {forms.Lit} */ (literal) } };
    if (type_ann) return { type_ann, value: null };
    if (value && holder === CONSTANT && this.types.isSymbol(value)) return { type_ann: annotated(keyword('Symbol')), value: null };
    if (!value) return { type_ann: annotated(keyword('Any')), value: null };
    if (holder === CONSTANT && this.isConstant(value)) return { type_ann: null, value };
    return { type_ann: annotated(this.types.of(value, holder)), value: null };
  }

  /**
   * The literal of a constant without a written type, which the compiler keeps; null of another one.
   *
   * @returns {forms.TsLit | null}
   */
  literal(/** @type {forms.Expr | null | undefined} */ value, /** @type {forms.TsTypeAnn | null | undefined} */ type_ann) {
    const written = type_ann && isMade(type_ann) && type_ann.type_ann.TsLitType;
    if (type_ann) return written ? written.lit : null;
    return value && (value.Ident || value.Member) ? madeLiteral(this.scope.find(value)) : null;
  }

  isConstant(/** @type {forms.Expr} */ value) {
    return Boolean((value.Unary && literalOf(value)) || (value.Member && value.Member.obj.Ident && this.scope.find(value).form === 'member'));
  }

  fn(/** @type {forms.FnDecl} */ node) {
    if (node.declare || this.isWritten) return node;
    return { ...node, declare: !this.isInside, function: this.signature(node.function) };
  }

  /** @returns {forms.Function} */
  signature(/** @type {forms.Function} */ node) {
    return { ...node, params: this.types.parameters(node.params || []), body: null };
  }

  class(/** @type {forms.ClassDecl} */ node) {
    if (node.declare || this.isWritten) return node;
    return { ...node, declare: !this.isInside, class: this.classOf(node.class) };
  }

  enum(/** @type {forms.TsEnumDecl} */ node) {
    if (node.declare || this.isWritten) return node;
    const values = enumValues(node, this.scope);
    /** @type {(value: string | number) => forms.Lit} */
    const literal = (value) => (typeof value === 'number' ? { Num: { span: NONE, raw: String(value) } } : { Str: { span: NONE, value, raw: null } });
    const init = (/** @type {string | number | undefined} */ value) => (value === undefined ? null : { Lit: literal(value) });
    return { ...node, declare: !this.isInside, members: (node.members || []).map((it, place) => ({ ...it, init: init(values[place]) })) };
  }

  /** @returns {forms.TsModuleDecl} */
  namespace(/** @type {forms.TsModuleDecl} */ node) {
    if (node.declare || this.isWritten) return { ...node, declare: node.declare && !this.isInside };
    const { body: items = [] } = blockOf(node) || NO_BLOCK;
    const whole = node.body;
    if (!whole) return { ...node, declare: !this.isInside };
    const all = node.id.Ident && !whole.TsNamespaceDecl ? this.scope.blocks(node.id.Ident.sym) : items;
    const inner = this.inside(all).items(items);
    const isPlain = inner.some((it) => it.Stmt);
    const body = isPlain && !saysExports(inner) ? [...inner, EMPTY_LIST] : inner;
    /** @type {(body: forms.TsNamespaceBody) => forms.TsNamespaceBody} */
    const rebuilt = ({ TsNamespaceDecl: nested, TsModuleBlock: block }) => {
      return nested ? { TsNamespaceDecl: { ...nested, body: rebuilt(nested.body) } } : { TsModuleBlock: { ...block, body } };
    };
    return { ...node, declare: !this.isInside, body: rebuilt(whole) };
  }

  // ---- classes

  /** @returns {forms.Class} */
  classOf(/** @type {forms.Class} */ node) {
    return { ...node, decorators: [], body: withoutImplementations(node.body || [], (it) => (this.isIndexed(it) ? null : methodOf(it))).flatMap((it) => this.member(it) || []) };
  }

  isIndexed(/** @type {forms.ClassMember} */ choice) {
    /** @type {forms.Part} */
    const { key } = variantOf(choice)[1];
    return Boolean(key && this.scope.isAnyKey(/** @type {{ Computed?: forms.ComputedPropName }} */ (key)));
  }

  /**
   * What a declaration file has of a member; null where it has nothing.
   *
   * @param {forms.ClassMember} choice
   * @returns {forms.ClassMember | null}
   */
  member(choice) {
    if (this.isIndexed(choice)) return INDEXED ? this.attempt(() => this.indexed(choice)) : null;
    return this.attempt(() => this.memberOf(choice));
  }

  /** @returns {forms.ClassMember} */
  memberOf(/** @type {forms.ClassMember} */ choice) {
    if (choice.PrivateProp) return { PrivateProp: this.memberPrivateProp(plain(choice.PrivateProp)) };
    if (choice.ClassProp) return { ClassProp: this.memberClassProp(plain(choice.ClassProp)) };
    if (choice.Method) return { Method: this.memberMethod(plain(choice.Method)) };
    if (choice.Constructor) return { Constructor: this.memberConstructor(plain(choice.Constructor)) };
    if (choice.PrivateMethod) return { PrivateMethod: plain(choice.PrivateMethod) };
    return choice.AutoAccessor ? { AutoAccessor: plain(choice.AutoAccessor) } : choice;
  }

  /**
   * A member under a key that may be any text, as a property: the compiler takes it for an index signature.
   *
   * @param {forms.ClassMember} choice
   * @returns {forms.ClassMember}
   */
  indexed(choice) {
    if (choice.ClassProp) return { ClassProp: { ...this.memberClassProp(choice.ClassProp), accessibility: null } };
    const { key, is_static, is_optional, kind, span, function: { params = [], return_type, type_params } } = /** @type {forms.ClassMethod} */ (choice.Method);
    const typed = /** @type {forms.TsTypeAnn} */ (kind === 'Setter' ? /** @type {forms.Part} */ (variantOf(params[0].pat)[1]).type_ann : return_type);
    const type_ann = kind === 'Method' ? annotated(this.types.functionType({ params, type_params }, typed)) : typed;
    return { ClassProp: { span, key, is_static, is_optional, type_ann } };
  }

  memberPrivateProp(/** @type {forms.PrivateProp} */ node) {
    return { ...node, definite: false, type_ann: null };
  }

  memberClassProp(/** @type {forms.ClassProp} */ node) {
    const plain = { ...node, declare: false, definite: false, is_override: false };
    if (node.accessibility === 'Private') return { ...plain, type_ann: null, value: null };
    return { ...plain, ...this.held(node.value, ownSymbol(node.type_ann, Boolean(node.readonly && node.is_static)), node.readonly ? CONSTANT : WIDE) };
  }

  memberMethod(/** @type {forms.ClassMethod} */ node) {
    return { ...node, is_override: false, function: this.signature(node.function) };
  }

  memberConstructor(/** @type {forms.Constructor} */ node) {
    return { ...node, body: null, params: this.types.parameters((node.params || []).flatMap((it) => it.Param || [])).map((Param) => ({ Param })) };
  }
}

/** The items of a module without imports of names that values alone mentioned. */
function withoutUnused(/** @type {forms.ModuleItem[]} */ items) {
  const isImport = (/** @type {forms.ModuleItem} */ it) => Boolean(it.ModuleDecl && it.ModuleDecl.Import);
  const { names } = mentioned(items.filter((it) => !isImport(it)));
  return items.flatMap((it) => {
    const node = it.ModuleDecl && it.ModuleDecl.Import;
    if (!node) return [it];
    const specifiers = (node.specifiers || []).filter((each) => names.has(variantOf(each)[1].local.sym));
    return specifiers.length ? [{ ModuleDecl: { Import: { ...node, specifiers } } }] : [];
  });
}

/** The name of the declaration file of a module. */
function declarationName(/** @type {string} */ name) {
  return name.replace(/(\.d)?\.([cm]?)tsx?$/, '.d.$2ts');
}

/**
 * Why a module has no declaration file, as messages.
 *
 * @returns {import('../messages/types').Message[]}
 */
function untoldMessages(/** @type {Untold[]} */ untold, /** @type {SourceFile} */ file, /** @type {string} */ shown) {
  return untold.map(({ span, message }) => ({
    level: 'Error', code: 'untold-type', message: `a declaration file wants a type here: ${message}`, hint: 'write its type', info: [],
    specifier: file.specifier, file: shown, lines: file.lines, start: file.lines.offset((span || NONE)[0]), end: file.lines.offset((span || NONE)[1]),
  }));
}

/**
 * The declaration files of a folder that was analysed, in the order of their names, `{specifier, name, text}`, and messages of the modules that have none.
 * `shownName(path)` is how messages name a file.
 */
function declarationFiles(/** @type {World} */ world, /** @type {(file: string) => string} */ shownName) {
  const scopes = scopesOf(withPartial(world));
  /** @type {import('./types').Printed[]} */
  const made = [];
  /** @type {import('../messages/types').Message[]} */
  const messages = [];
  for (const { specifier, skeleton, mark } of shown(world)) {
    const file = world.files.get(specifier);
    if (!file) continue;
    const isWritten = /\.d\.[cm]?ts$/.test(specifier);
    const declarations = new Declarations(scopes(specifier), { isWritten });
    const body = withSources(withoutUnused(declarations.items(skeleton.program.body || [])));
    const wrong = [...untoldMessages(declarations.untold, file, shownName(file.path)), ...shadowedMessages(body, placedIn(file, shownName(file.path)))];
    messages.push(...wrong);
    if (wrong.length) continue;
    const text = printedModule(file.name, { ...skeleton, program: { ...skeleton.program, body } }, true);
    made.push({ specifier, name: declarationName(file.name), text: mark + text });
  }
  return { files: byName(made), messages };
}

module.exports = { declarationFiles, declarationName };
