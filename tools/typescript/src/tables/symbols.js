'use strict';
// The tables of a module, as docs/FORMATS.md has them: its symbols with their exports, members and declarations, the symbols
// of its identifiers, and the names that it answers.

const deps = require('./dependencies.js');
const { saysExports } = require('./ambient.js');
const { fillClass, fillInterface } = require('./members.js');

/** @typedef {import('../package/types').Module} Module */
/** @typedef {import('./types').OwnTables} OwnTables */
/** @typedef {import('./types').GrowingSymbol} GrowingSymbol */
/** @typedef {import('./types').Dep} Dep */
/** @typedef {import('./types').Dependency} Dependency */
/** @typedef {import('./types').Identifier} Identifier */
/** @typedef {import('./types').Flags} Flags */
/** @typedef {import('./types').Kind} Kind */
/** @typedef {import('./dependencies.js').Dependencies} Dependencies */
/** @typedef {import('./types').Binds} Binds */
/** @typedef {import('./types').Bound} Bound */

const { Dependencies } = deps;

const { variantOf } = require('../tree/walk.js');

const VALUE = { value: true };
const TYPE = { type_: true };
const BOTH = { value: true, type_: true };
/** @type {forms.Span} */
const NOWHERE = [0, 0];

class Tables {
  constructor(/** @type {string} */ specifier, /** @type {boolean} */ isAmbient, /** @type {number} */ unresolved) {
    this.specifier = specifier;
    this.isAmbient = isAmbient;
    this.unresolved = unresolved;
    /** @type {GrowingSymbol[]} */
    this.symbols = [{ id: 0, exports: new Map(), members: [], decls: [] }];
    /** @type {Map<string, GrowingSymbol>} */
    this.byIdent = new Map();
    /** @type {Map<string, Identifier>} */
    this.idents = new Map();
    /** @type {[forms.Span, string][]} */
    this.reExportsOfAll = [];
    /** @type {Set<GrowingSymbol>} */
    this.functions = new Set();
  }

  /** @returns {GrowingSymbol} */
  newSymbol(/** @type {GrowingSymbol} */ parent, /** @type {string | undefined} */ name, /** @type {string | undefined} */ qualified) {
    /** @type {GrowingSymbol} */
    const symbol = { id: this.symbols.length, parent_id: parent.id, maybe_name: name, exports: new Map(), members: [], decls: [] };
    symbol.qualified_name = qualified;
    this.symbols.push(symbol);
    return symbol;
  }

  bind(/** @type {Bound} */ ident, /** @type {GrowingSymbol} */ symbol) {
    const key = `${ident.ctxt} ${ident.sym}`;
    this.byIdent.set(key, symbol);
    this.idents.set(key, [ident.sym, ident.ctxt || 0]);
  }

  /**
   * The symbol that an identifier binds, made at its first declaration.
   *
   * @returns {GrowingSymbol}
   */
  symbolOf(/** @type {Bound} */ ident, /** @type {GrowingSymbol} */ parent) {
    let symbol = this.byIdent.get(`${ident.ctxt} ${ident.sym}`);
    if (!symbol) {
      symbol = this.newSymbol(parent, ident.sym, qualify(parent, ident.sym));
      symbol.ident = [ident.sym, ident.ctxt || 0];
      this.bind(ident, symbol);
    }
    return symbol;
  }

  /** An identifier that a namespace exports: one of that name which another block of the namespace exports has the same symbol. */
  join(/** @type {Bound} */ ident, /** @type {GrowingSymbol} */ namespace) {
    const before = namespace.exports.get(ident.sym);
    if (before !== undefined) this.bind(ident, this.symbols[before]);
  }

  /** The symbol of what is exported as default without a name, as overloads of a function. */
  unnamedDefault(/** @type {GrowingSymbol} */ parent) {
    if (!parent.unnamed) Object.defineProperty(parent, 'unnamed', { value: this.newSymbol(parent, 'default', qualify(parent, 'default')) });
    return /** @type {GrowingSymbol} */ (parent.unnamed);
  }

  /** Exports a symbol as default. Beside another one, as a function beside an interface, both stand behind one symbol. */
  exportDefault(/** @type {GrowingSymbol} */ parent, /** @type {GrowingSymbol} */ symbol) {
    const known = parent.exports.get('default');
    const before = known === undefined ? symbol : this.symbols[known];
    if (before === symbol) {
      parent.exports.set('default', symbol.id);
      return;
    }
    const both = this.unnamedDefault(parent);
    for (const each of [before, symbol]) if (each.ident && each !== both) this.alias(both, each.decls[each.decls.length - 1].range, { Target: each.ident });
    parent.exports.set('default', both.id);
  }

  dependencies() {
    return new Dependencies(this.unresolved);
  }

  /** A declaration with its own text, and what that refers to by a call. */
  define(/** @type {GrowingSymbol} */ symbol, /** @type {forms.Span} */ range, /** @type {Binds} */ namespaces, /** @type {Flags} */ flags, /** @type {(d: Dependencies) => void} */ follow, marks = {}) {
    const d = this.dependencies();
    follow(d);
    const node = { ...flags, deps: d.list() };
    const decl = { range, ...namespaces, ...marks, kind: { Definition: node } };
    symbol.decls.push(decl);
    return decl;
  }

  alias(/** @type {GrowingSymbol} */ symbol, /** @type {forms.Span} */ range, /** @type {Kind} */ kind) {
    symbol.decls.push({ range, ...BOTH, kind });
  }
}

function qualify(/** @type {GrowingSymbol} */ parent, /** @type {string} */ name) {
  return parent.qualified_name === undefined || parent.qualified_name === null ? name : `${parent.qualified_name}.${name}`;
}

/**
 * The identifiers that a pattern binds.
 *
 * @returns {forms.Ident[]}
 */
function boundBy(/** @type {forms.Pat} */ choice) {
  const [variant, node] = variantOf(choice);
  switch (variant) {
    case 'Ident':
      return [node.id];
    case 'Array':
      return (node.elems || []).flatMap((it) => (it ? boundBy(it) : []));
    case 'Object':
      return (node.props || []).flatMap((it) => (it.KeyValue ? boundBy(it.KeyValue.value) : it.Assign ? [it.Assign.key.id] : boundBy(it.Rest.arg)));
    case 'Rest':
      return boundBy(node.arg);
    case 'Assign':
      return boundBy(node.left);
    default:
      return [];
  }
}

/**
 * The identifiers that a declaration declares.
 *
 * @returns {forms.Ident[]}
 */
function declaredBy(/** @type {forms.Decl} */ choice) {
  /** @type {forms.Part} */
  const node = variantOf(choice)[1];
  if (node.decls) return node.decls.flatMap((it) => boundBy(it.name));
  const ident = /** @type {forms.Ident | null | undefined} */ (node.ident || (node.id && ('Ident' in node.id ? node.id.Ident : node.id)));
  return ident && ident.ctxt ? [ident] : [];
}

// ---- declarations; each answers the symbols that it declares

function isFunctionValue(/** @type {forms.Expr | null | undefined} */ choice) {
  let at = choice;
  while (at && at.Paren) at = at.Paren.expr;
  return Boolean(at && (at.Arrow || at.Fn));
}

/** @returns {GrowingSymbol[]} */
function variables(/** @type {Tables} */ t, /** @type {forms.VarDecl | forms.UsingDecl} */ node, /** @type {GrowingSymbol} */ parent, /** @type {Flags} */ flags) {
  const made = [];
  for (const it of node.decls || []) {
    const { type_ann: annotation } = /** @type {{ type_ann?: forms.TsTypeAnn | null }} */ (variantOf(it.name)[1]);
    for (const ident of boundBy(it.name)) {
      const symbol = t.symbolOf(ident, parent);
      t.define(symbol, it.span, VALUE, flags, (d) => deps.typeOrValue(d, annotation, it.init));
      if (!annotation && 'kind' in node && node.kind === 'Const' && isFunctionValue(it.init)) t.functions.add(symbol);
      made.push(symbol);
    }
  }
  return made;
}

/**
 * A declared function. Overloads are reported when all of them are known.
 *
 * @returns {GrowingSymbol}
 */
function functionDeclaration(/** @type {Tables} */ t, /** @type {forms.Ident | null | undefined} */ ident, /** @type {forms.Function} */ node, /** @type {forms.Span} */ range, /** @type {GrowingSymbol} */ parent, /** @type {Flags} */ flags) {
  const symbol = ident ? t.symbolOf(ident, parent) : t.unnamedDefault(parent);
  const marks = { has_body: Boolean(node.body) };
  t.define(symbol, range, VALUE, { ...flags, is_function: true }, (d) => deps.signature(d, node), marks);
  t.functions.add(symbol);
  return symbol;
}

/** @returns {GrowingSymbol} */
function classDeclaration(/** @type {Tables} */ t, /** @type {forms.Ident | null | undefined} */ ident, /** @type {forms.Class} */ node, /** @type {forms.Span} */ range, /** @type {GrowingSymbol} */ parent, /** @type {Flags} */ flags, /** @type {boolean} */ isAmbient) {
  const symbol = ident ? t.symbolOf(ident, parent) : t.unnamedDefault(parent);
  const decl = t.define(symbol, range, BOTH, { ...flags, is_class: true }, (d) => {
    deps.walk(d, node.type_params);
    deps.superClass(d, node);
    for (const it of node.implements || []) deps.heritageName(d, it);
  });
  fillClass(t, symbol, node, decl, isAmbient);
  return symbol;
}

/** @returns {GrowingSymbol} */
function interfaceDeclaration(/** @type {Tables} */ t, /** @type {forms.TsInterfaceDecl} */ node, /** @type {forms.Span} */ range, /** @type {GrowingSymbol} */ parent, /** @type {Flags} */ flags) {
  const symbol = t.symbolOf(node.id, parent);
  t.define(symbol, range, TYPE, flags, (d) => {
    deps.walk(d, node.type_params);
    for (const it of node.extends || []) deps.heritageName(d, it);
  });
  fillInterface(t, symbol, node);
  return symbol;
}

/** @returns {GrowingSymbol} */
function typeAlias(/** @type {Tables} */ t, /** @type {forms.TsTypeAliasDecl} */ node, /** @type {forms.Span} */ range, /** @type {GrowingSymbol} */ parent, /** @type {Flags} */ flags) {
  const symbol = t.symbolOf(node.id, parent);
  t.define(symbol, range, TYPE, flags, (d) => {
    deps.walk(d, node.type_params);
    deps.walk(d, node.type_ann);
  });
  return symbol;
}

/**
 * An enum, whose members are exports of it.
 *
 * @returns {GrowingSymbol}
 */
function enumDeclaration(/** @type {Tables} */ t, /** @type {forms.TsEnumDecl} */ node, /** @type {forms.Span} */ range, /** @type {GrowingSymbol} */ parent, /** @type {Flags} */ flags) {
  const symbol = t.symbolOf(node.id, parent);
  t.define(symbol, range, BOTH, flags, (d) => {
    for (const it of node.members || []) if (it.init) deps.walk(d, it.init);
  });
  for (const it of node.members || []) {
    const name = it.id.Ident ? it.id.Ident.sym : it.id.Str.value;
    if (symbol.exports.has(name)) continue;
    const member = t.newSymbol(symbol, name, qualify(symbol, name));
    t.define(member, it.span, BOTH, {}, () => {});
    member.enum = symbol;
    symbol.exports.set(name, member.id);
  }
  return symbol;
}

/** @returns {GrowingSymbol | null} */
function namespaceDeclaration(/** @type {Tables} */ t, /** @type {forms.TsModuleDecl} */ node, /** @type {forms.Span} */ range, /** @type {GrowingSymbol} */ parent, /** @type {Flags} */ flags, /** @type {boolean} */ isAmbient) {
  if (node.global || !node.id.Ident || !node.body) return null;
  const inside = isAmbient || Boolean(node.declare);
  const symbol = t.symbolOf(node.id.Ident, parent);
  t.define(symbol, range, BOTH, { ...flags, is_ts_namespace: true }, () => {});
  namespaceBody(t, symbol, node.body, inside);
  return symbol;
}

function namespaceBody(/** @type {Tables} */ t, /** @type {GrowingSymbol} */ symbol, /** @type {forms.TsNamespaceBody} */ body, /** @type {boolean} */ isAmbient) {
  if (body.TsModuleBlock) {
    items(t, body.TsModuleBlock.body || [], symbol, isAmbient);
    return;
  }
  const node = body.TsNamespaceDecl;
  t.join(node.id, symbol);
  const inner = t.symbolOf(node.id, symbol);
  t.define(inner, node.span, BOTH, { is_ts_namespace: true, has_export_keyword: true }, () => {});
  symbol.exports.set(node.id.sym, inner.id);
  namespaceBody(t, inner, node.body, isAmbient);
}

/**
 * Fills in a declaration. `range` is that of its export, if it has one.
 *
 * @returns {GrowingSymbol[]}
 */
function declaration(/** @type {Tables} */ t, /** @type {forms.Decl} */ choice, /** @type {GrowingSymbol} */ parent, /** @type {boolean} */ isAmbient, /** @type {forms.Span | undefined} */ exportRange) {
  const [variant, node] = variantOf(choice);
  const flags = exportRange ? { has_export_keyword: true } : {};
  const range = exportRange || ('span' in node ? node.span : NOWHERE);
  switch (variant) {
    case 'Var':
    case 'Using':
      return variables(t, node, parent, flags);
    case 'Fn':
      return [functionDeclaration(t, node.ident, node.function, exportRange || node.function.span, parent, flags)];
    case 'Class': {
      const plain = node.class.type_params ? flags : { ...flags, is_plain_class_decl: true };
      return [classDeclaration(t, node.ident, node.class, exportRange || node.class.span, parent, plain, isAmbient || Boolean(node.declare))];
    }
    case 'TsInterface':
      return [interfaceDeclaration(t, node, range, parent, flags)];
    case 'TsTypeAlias':
      return [typeAlias(t, node, range, parent, flags)];
    case 'TsEnum':
      return [enumDeclaration(t, node, range, parent, flags)];
    case 'TsModule': {
      const symbol = namespaceDeclaration(t, node, range, parent, flags, isAmbient);
      return symbol ? [symbol] : [];
    }
    default:
      return [];
  }
}

// ---- imports and exports

function exportedText(/** @type {forms.ModuleExportName} */ choice) {
  return choice.Str ? choice.Str.value : choice.Ident.sym;
}

/** @returns {Kind} */
function fileRef(/** @type {string} */ specifier, /** @type {string | null} */ name) {
  return { FileRef: { specifier, name: name === null ? 'Star' : { Name: name } } };
}

function importDeclaration(/** @type {Tables} */ t, /** @type {forms.ImportDecl} */ node, /** @type {GrowingSymbol} */ parent) {
  for (const it of node.specifiers || []) {
    const { span, local } = variantOf(it)[1];
    const named = it.Named && (it.Named.imported ? exportedText(it.Named.imported) : local.sym);
    t.alias(t.symbolOf(local, parent), span, fileRef(node.src.value, it.Default ? 'default' : named || null));
  }
}

function exportNamed(/** @type {Tables} */ t, /** @type {forms.NamedExport} */ node, /** @type {GrowingSymbol} */ parent) {
  for (const it of node.specifiers || []) {
    const [whole, named] = [it.Namespace, it.Named];
    const each = whole || named;
    if (!each) continue;
    const name = 'name' in each ? each.name : each.exported || each.orig;
    const shown = exportedText(name);
    const symbol = t.newSymbol(parent, shown, qualify(parent, shown));
    const { span } = each;
    if (node.src) t.alias(symbol, span, fileRef(node.src.value, named ? exportedText(named.orig) : null));
    else if (named && named.orig.Ident) t.alias(symbol, span, { Target: [named.orig.Ident.sym, named.orig.Ident.ctxt || 0] });
    parent.exports.set(shown, symbol.id);
  }
}

function importEquals(/** @type {Tables} */ t, /** @type {forms.TsImportEqualsDecl} */ node, /** @type {GrowingSymbol} */ parent) {
  const symbol = t.symbolOf(node.id, parent);
  const { TsEntityName, TsExternalModuleRef } = node.module_ref;
  if (TsExternalModuleRef) {
    t.alias(symbol, node.span, fileRef(TsExternalModuleRef.expr.value, null));
  } else {
    const { first, parts } = deps.entityParts(TsEntityName);
    /** @type {Identifier} */
    const id = [first.sym, first.ctxt || 0];
    t.alias(symbol, node.span, parts.length ? { QualifiedTarget: [id, parts] } : { Target: id });
  }
  if (node.is_export) parent.exports.set(node.id.sym, symbol.id);
}

function defaultDeclaration(/** @type {Tables} */ t, /** @type {forms.ExportDefaultDecl} */ node, /** @type {GrowingSymbol} */ parent) {
  const { Class, Fn, TsInterfaceDecl } = node.decl;
  if (Class) t.exportDefault(parent, classDeclaration(t, Class.ident, Class.class, node.span, parent, {}, false));
  else if (Fn) t.exportDefault(parent, functionDeclaration(t, Fn.ident, Fn.function, node.span, parent, {}));
  else if (TsInterfaceDecl) t.exportDefault(parent, interfaceDeclaration(t, TsInterfaceDecl, node.span, parent, {}));
}

function defaultExpression(/** @type {Tables} */ t, /** @type {forms.ExportDefaultExpr} */ node, /** @type {GrowingSymbol} */ parent) {
  const symbol = t.unnamedDefault(parent);
  if (node.expr.Ident) t.alias(symbol, node.span, { Target: [node.expr.Ident.sym, node.expr.Ident.ctxt || 0] });
  else {
    const flags = node.expr.Class ? { is_default_class_expr: true } : {};
    t.define(symbol, node.span, BOTH, flags, (d) => deps.value(d, node.expr));
  }
  t.exportDefault(parent, symbol);
}

/** @type {{ [V in keyof forms.ModuleDeclVariants]?: (t: Tables, node: forms.ModuleDeclVariants[V], parent: GrowingSymbol) => unknown }} */
const MODULE_DECLARATIONS = {
  Import: importDeclaration,
  ExportDecl: () => {},
  ExportNamed: exportNamed,
  ExportDefaultDecl: defaultDeclaration,
  ExportDefaultExpr: defaultExpression,
  ExportAll: (/** @type {Tables} */ t, node) => t.reExportsOfAll.push([node.span, node.src.value]),
  TsImportEquals: importEquals,
};

function items(/** @type {Tables} */ t, /** @type {forms.ModuleItem[]} */ list, /** @type {GrowingSymbol} */ parent, /** @type {boolean} */ isAmbient) {
  const isAllExported = isAmbient && !saysExports(list);
  for (const it of list) {
    const exported = it.ModuleDecl && it.ModuleDecl.ExportDecl;
    const decl = exported ? exported.decl : it.Stmt && it.Stmt.Decl;
    if (decl) {
      if ((exported || isAllExported) && parent.id) for (const ident of declaredBy(decl)) t.join(ident, parent);
      const made = declaration(t, decl, parent, isAmbient, exported && exported.span);
      if (exported || isAllExported) for (const symbol of made) parent.exports.set(symbol.maybe_name || '', symbol.id);
    } else if (it.ModuleDecl) {
      const [variant, node] = variantOf(it.ModuleDecl);
      const fill = /** @type {((t: Tables, node: object, parent: GrowingSymbol) => unknown) | undefined} */ (MODULE_DECLARATIONS[variant]);
      if (fill) fill(t, node, parent);
    }
  }
  for (const it of list) if (it.Stmt && it.Stmt.Expr) expando(t, it.Stmt.Expr.expr);
}

/** A property that is assigned to a function, `object.name = value;`, is an export of the function. */
function expando(/** @type {Tables} */ t, /** @type {forms.Expr} */ choice) {
  const node = choice.Assign;
  if (!node || node.op !== '=') return;
  const target = node.left.Simple && node.left.Simple.Member;
  if (!target || !target.obj.Ident || !target.prop.Ident) return;
  const { sym, ctxt } = target.obj.Ident;
  const symbol = t.byIdent.get(`${ctxt} ${sym}`);
  const name = target.prop.Ident.sym;
  if (!symbol || !t.functions.has(symbol) || symbol.exports.has(name)) return;
  const made = t.newSymbol(symbol, name, qualify(symbol, name));
  t.define(made, node.span, VALUE, {}, (d) => deps.value(d, node.right));
  symbol.exports.set(name, made.id);
}

// ---- the finished tables

/** The implementation of overloads has two marks, for neither of which alone a rule asks. */
function markImplementation(/** @type {GrowingSymbol} */ symbol) {
  const functions = symbol.decls.filter((it) => it.has_body !== undefined);
  for (const it of functions) {
    if (functions.length > 1 && it.has_body) it.has_overloads = true;
    else delete it.has_body;
  }
}

/** Whether an alias leads to a name within another, as `import a = b.c` does. */
function hasPathAlias(/** @type {Tables} */ t) {
  return t.symbols.some((symbol) => symbol.decls.some(({ kind }) => kind.QualifiedTarget));
}

/** Whether a message may name a symbol: a private member, a class or namespace in which a name is sought, an alias, or what may refer to a name within another. */
function mayBeNamed(/** @type {GrowingSymbol} */ symbol, /** @type {boolean} */ byAlias) {
  const refers = (/** @type {Dependency} */ [dep]) => byAlias || !dep.Id;
  const isSaid = (/** @type {import('./types').Definition} */ it) => it.is_class || it.is_default_class_expr || it.is_ts_namespace || (it.deps || []).some(refers);
  return symbol.is_private_member || symbol.decls.some(({ kind }) => (kind.Definition ? isSaid(kind.Definition) : kind.Definition === undefined));
}

/** The symbol of an id, or undefined. */
function symbolOfId(/** @type {Tables} */ t, /** @type {Identifier} */ id) {
  return t.byIdent.get(`${id[1]} ${id[0]}`);
}

/**
 * Whether whoever reaches a symbol by its value has its type too: a class, whose interface of the same name adds members to it, or an alias of one.
 *
 * @returns {boolean}
 */
function isClass(/** @type {Tables} */ t, /** @type {GrowingSymbol | undefined} */ symbol, seen = new Set()) {
  if (!symbol || seen.has(symbol)) return false;
  seen.add(symbol);
  return symbol.decls.some(({ kind }) => (kind.Definition ? kind.Definition.is_class : kind.Target && isClass(t, symbolOfId(t, kind.Target), seen)));
}

/** Dependencies on what has no symbol, as a type parameter, ask for nothing. Those on the value of a class ask for its type too. */
function pruned(/** @type {Tables} */ t, /** @type {Dependency[]} */ list) {
  const idOf = (/** @type {Dep} */ dep) => dep.Id || (dep.QualifiedId && dep.QualifiedId[0]);
  const made = t.dependencies();
  for (const [dep, namespace] of list) {
    const id = idOf(dep);
    const symbol = id && symbolOfId(t, id);
    if (!id || symbol) made.add(dep, dep.Id && isClass(t, symbol) ? 'Both' : namespace);
  }
  return made.list();
}

/** What the blocks of an enum refer to: whoever asks for a member has all of them. */
function depsOfEnum(/** @type {GrowingSymbol} */ symbol) {
  return symbol.decls.flatMap((it) => (it.kind.Definition && it.kind.Definition.deps) || []);
}

/** @returns {import('./types').Symbol} */
function finished(/** @type {Tables} */ t, /** @type {GrowingSymbol} */ symbol, /** @type {boolean} */ byAlias) {
  markImplementation(symbol);
  for (const it of symbol.decls) {
    const node = it.kind.Definition;
    if (!node) continue;
    const deps = pruned(t, symbol.enum ? depsOfEnum(symbol.enum) : node.deps || []);
    if (deps.length) node.deps = deps;
    else delete node.deps;
    // A function is asked for properties that are assigned to it.
    if (!symbol.exports.size) delete node.is_function;
  }
  const { ident, exports, enum: around, ...rest } = symbol;
  /** @type {import('./types').Symbol} */
  const made = { ...rest, exports: [...exports] };
  if (rest.members.length === 0) delete made.members;
  if (exports.size === 0) delete made.exports;
  if (made.qualified_name === undefined || !mayBeNamed(symbol, byAlias)) delete made.qualified_name;
  // What a symbol stands in, and by which name it is found there, is asked of members alone.
  if (!symbol.decls.some(({ kind }) => kind.Definition && kind.Definition.is_member)) {
    delete made.parent_id;
    delete made.maybe_name;
  }
  return made;
}

/**
 * The tables of a module without `resolved_exports`, which other modules decide: see `World`.
 *
 * `module` has `specifier`, `isDeclaration` and `tree`, as `toTree` makes it.
 *
 * @returns {OwnTables}
 */
function ownTables(/** @type {Module} */ module, unresolved = 1) {
  const t = new Tables(module.specifier, module.isDeclaration, unresolved);
  const { Module, Script } = /** @type {forms.Program} */ (module.tree.program);
  const body = Script ? (Script.body || []).map((Stmt) => ({ Stmt })) : Module.body || [];
  items(t, body, t.symbols[0], Boolean(Module) && module.isDeclaration);
  const byAlias = hasPathAlias(t);
  const symbols = t.symbols.map((it) => finished(t, it, byAlias));
  return {
    module_symbol: 0,
    symbols,
    swc_ids: [...t.byIdent].map(([key, it]) => [/** @type {Identifier} */ (t.idents.get(key)), it.id]),
    re_export_all_nodes: t.reExportsOfAll,
  };
}

/**
 * The tables of a module of JSON: its value is the default export.
 *
 * @returns {OwnTables}
 */
function jsonTables(/** @type {number} */ length) {
  /** @type {import('./types').Declaration} */
  const decl = { range: [1, length + 1], ...BOTH, kind: { Definition: null } };
  return {
    module_symbol: 0,
    symbols: [
      { id: 0, exports: [['default', 1]] },
      { id: 1, qualified_name: 'default', decls: [decl] },
    ],
  };
}

/** The modules around a module: which names each answers, also by its re-exports of all. */
class World {
  /** `resolve` leads from a specifier and a source text to a specifier, or to nothing. */
  constructor(/** @type {(from: string, text: string) => string | null | undefined} */ resolve) {
    this.resolve = resolve;
    /** @type {Map<string, { tables: OwnTables }>} */
    this.modules = new Map();
    /** @type {Map<string, Set<string>>} */
    this.answered = new Map();
    /** @type {Set<string> | null} */
    this.exportedAgain = null;
  }

  /** Adds a module with its tables, which may be read where they are asked for. */
  add(/** @type {string} */ specifier, /** @type {{ tables: OwnTables }} */ module) {
    this.modules.set(specifier, module);
  }

  tablesOf(/** @type {string} */ specifier) {
    const module = this.modules.get(specifier);
    return module && module.tables;
  }

  /** The names that a module exports itself. */
  ownNames(/** @type {string} */ specifier) {
    const tables = this.tablesOf(specifier);
    return tables ? (tables.symbols[0].exports || []).map(([name]) => name) : [];
  }

  targets(/** @type {string} */ specifier) {
    const tables = this.tablesOf(specifier);
    const sources = tables ? (tables.re_export_all_nodes || []).map(([, source]) => source) : [];
    return sources.flatMap((it) => this.resolve(specifier, it) || []);
  }

  /** Whether another module exports all of a module again, which asks for its names. */
  isExportedAgain(/** @type {string} */ specifier) {
    this.exportedAgain = this.exportedAgain || new Set([...this.modules.keys()].flatMap((it) => this.targets(it)));
    return this.exportedAgain.has(specifier);
  }

  /** Whether re-exports of all lead from a module to another one. */
  leads(/** @type {string} */ from, /** @type {string} */ to) {
    const seen = new Set();
    const waiting = [from];
    for (let next = waiting.pop(); next !== undefined; next = waiting.pop()) {
      if (next === to) return true;
      if (seen.has(next)) continue;
      seen.add(next);
      waiting.push(...this.targets(next));
    }
    return false;
  }

  /**
   * The re-exports of all of a module. Since the first one that answers a name is followed, those that lead back to the module
   * come last: else a name that stands outside of a circle might be looked for round and round in it.
   */
  reExports(/** @type {string} */ specifier) {
    const tables = this.tablesOf(specifier);
    const nodes = (tables && tables.re_export_all_nodes) || [];
    const back = (/** @type {[forms.Span, string]} */ it) => {
      const target = this.resolve(specifier, it[1]);
      return Boolean(target && this.leads(target, specifier));
    };
    if (nodes.length < 2) return nodes;
    const isBack = nodes.map(back);
    return [...nodes.filter((_, at) => !isBack[at]), ...nodes.filter((_, at) => isBack[at])];
  }

  /** All names that a module answers. */
  names(/** @type {string} */ specifier) {
    const known = this.answered.get(specifier);
    if (known) return known;
    const found = new Set(this.ownNames(specifier));
    const seen = new Set([specifier]);
    const waiting = this.targets(specifier);
    for (let next = waiting.pop(); next !== undefined; next = waiting.pop()) {
      if (seen.has(next)) continue;
      seen.add(next);
      for (const name of this.ownNames(next)) if (name !== 'default') found.add(name);
      waiting.push(...this.targets(next));
    }
    this.answered.set(specifier, found);
    return found;
  }
}

/**
 * The tables of a module among the modules around it, all of which `world` knows.
 *
 * @returns {import('./types').ModuleTables}
 */
function tablesOf(/** @type {Module} */ module, /** @type {World} */ world) {
  const { specifier } = module;
  const tables = /** @type {OwnTables} */ (world.tablesOf(specifier));
  const nodes = world.reExports(specifier);
  const names = world.isExportedAgain(specifier) ? [...world.names(specifier)] : [];
  return {
    ...tables,
    re_export_all_nodes: nodes.length ? nodes : undefined,
    resolved_exports: names.length ? names.map((name) => [name, specifier]) : undefined,
  };
}

module.exports = { Tables, World, jsonTables, ownTables, tablesOf };
