'use strict';
// What the skeletons of a folder declare, import and export, and where names lead across them.
const { partsOf, variantOf } = require('../tree/walk.js');

/** @typedef {import('./types').Declared} Declared */
/** @typedef {import('./types').Target} Target */

/** What the texts of imports lead to: as the graph resolves them, or joined to the module's URL. */
function resolver(/** @type {{ request: Pick<import('../program/types').Request, 'aliases'> & { graph: Pick<import('../program/types').Graph, 'resolutions'> } }} */ world) {
  const targets = new Map(world.request.graph.resolutions.map(([from, text, to]) => [`${from}\n${text}`, to]));
  const aliases = new Map(world.request.aliases || []);
  return (/** @type {string} */ from, /** @type {string} */ text) => {
    let to = targets.get(`${from}\n${text}`);
    if (to === undefined && text.startsWith('.')) to = new URL(text, from).href;
    return (to !== undefined && aliases.get(to)) || to;
  };
}

/**
 * The first name of a qualified one, or null.
 *
 * @param {forms.TsEntityName | null | undefined} entity
 * @returns {string | null}
 */
function firstName(entity) {
  if (!entity) return null;
  return entity.Ident ? entity.Ident.sym : firstName(entity.TsQualifiedName.left);
}

/** The identifiers and import types that a node mentions; of identifiers those of a scope, where one is given: keys, parameters and members of enums have others. */
function mentioned(/** @type {object} */ node, /** @type {number | undefined} */ scope = undefined) {
  /** @type {Set<string>} */
  const names = new Set();
  /** @type {[text: string, name: string | null][]} */
  const imports = [];
  /** @type {(at: forms.Part) => void} */
  const walk = (at) => {
    if (typeof at.sym === 'string' && at.ctxt !== undefined && (scope === undefined || at.ctxt === scope)) names.add(at.sym);
    if (at.TsImportType) imports.push([at.TsImportType.arg.value, firstName(at.TsImportType.qualifier)]);
    partsOf(at).forEach(walk);
  };
  walk(node);
  return { names, imports };
}

/** The text of a name of an import, an export or a module. */
const nameOf = (/** @type {forms.ModuleExportName | forms.TsModuleName} */ { Ident: ident, Str: text }) => (ident ? ident.sym : text.value);

/**
 * The names that a declaration binds, each with the part that belongs to it and its place.
 *
 * @param {forms.Decl} decl
 * @returns {Declared[]}
 */
function bound(decl) {
  const [form, node] = variantOf(decl);
  if (form === 'Class') return [{ name: node.ident.sym, node, span: node.class.span }];
  if (form === 'Fn') return [{ name: node.ident.sym, node, span: node.function.span }];
  if (form === 'TsModule') return [{ name: nameOf(node.id), node, span: node.span }];
  if (form !== 'Var' && form !== 'Using') return [{ name: node.id.sym, node, span: node.span }];
  if (form === 'Using') return [];
  return (node.decls || []).flatMap((each) => (each.name.Ident ? { name: each.name.Ident.id.sym, node: each, span: each.span } : []));
}

/** What a skeleton declares, imports and exports. */
class Names {
  constructor(/** @type {{ body?: forms.ModuleItem[] }} */ program) {
    /** @type {Map<string, Declared[]>} */
    this.declared = new Map();
    /** @type {Map<string, [text: string, name: string | null]>} */
    this.imported = new Map();
    /** @type {Map<string, string>} */
    this.exported = new Map();
    /** @type {[as: string, text: string, name: string | null][]} */
    this.reexported = [];
    /** @type {string[]} */
    this.all = [];
    // The names that are exported as types only, the names that are imported so, and the modules whose names are.
    /** @type {Set<string>} */
    this.exportedTypes = new Set();
    /** @type {Set<string>} */
    this.importedTypes = new Set();
    /** @type {Set<string>} */
    this.allTypes = new Set();
    // The names that are declared as values.
    /** @type {Set<string>} */
    this.values = new Set();
    // The number of the module's own scope, which its declarations and imports have.
    /** @type {number | undefined} */
    this.scope = undefined;
    for (const item of program.body || []) this.add(item);
  }

  declare(/** @type {string} */ name, /** @type {forms.Part} */ node, /** @type {forms.Span} */ span) {
    const { ident, id, name: pattern } = node;
    const variable = pattern && typeof pattern === 'object' && 'Ident' in pattern ? /** @type {forms.BindingIdent | undefined} */ (pattern.Ident) : undefined;
    this.within(/** @type {forms.Part | null | undefined} */ (ident || id || (variable && variable.id)));
    const before = this.declared.get(name);
    if (before) before.push({ name, node, span });
    else this.declared.set(name, [{ name, node, span }]);
  }

  within(/** @type {forms.Part | null | undefined} */ identifier) {
    if (this.scope === undefined && identifier && identifier.ctxt) this.scope = identifier.ctxt;
  }

  add(/** @type {forms.ModuleItem} */ { Stmt: statement, ModuleDecl: it }) {
    const decl = statement ? statement.Decl : it.ExportDecl && it.ExportDecl.decl;
    const isValue = decl && !['TsInterface', 'TsTypeAlias'].includes(variantOf(decl)[0]);
    for (const each of decl ? bound(decl) : []) {
      this.declare(each.name, each.node, each.span);
      if (isValue) this.values.add(each.name);
      if (it) this.exported.set(each.name, each.name);
    }
    if (!it) return;
    if (it.Import) this.import(it.Import);
    if (it.ExportNamed) this.exportNamed(it.ExportNamed);
    if (it.ExportAll) {
      this.all.push(it.ExportAll.src.value);
      if (it.ExportAll.type_only) this.allTypes.add(it.ExportAll.src.value);
    }
    if (it.ExportDefaultDecl) this.exportDefault(it.ExportDefaultDecl);
    if (it.ExportDefaultExpr) {
      this.declare('default', it.ExportDefaultExpr.expr, it.ExportDefaultExpr.span);
      this.values.add('default');
      this.exported.set('default', 'default');
    }
    if (it.TsImportEquals) {
      const { id, module_ref, span, is_export } = it.TsImportEquals;
      this.declare(id.sym, module_ref, span);
      if (is_export) this.exported.set(id.sym, id.sym);
    }
  }

  import(/** @type {forms.ImportDecl} */ { specifiers = [], src, type_only: isTypeOnly }) {
    for (const { Default: single, Namespace: whole, Named: named } of specifiers) {
      const { local } = single || whole || named;
      this.within(local);
      if (isTypeOnly || (named && named.is_type_only)) this.importedTypes.add(local.sym);
      this.imported.set(local.sym, [src.value, single ? 'default' : named ? (named.imported ? nameOf(named.imported) : local.sym) : null]);
    }
  }

  exportNamed(/** @type {forms.NamedExport} */ { specifiers = [], src, type_only: isTypeOnly }) {
    for (const { Default: single, Namespace: whole, Named: named } of specifiers) {
      const orig = single ? 'default' : named ? nameOf(named.orig) : null;
      const as = single ? single.exported.sym : whole ? nameOf(whole.name) : nameOf(named.exported || named.orig);
      if (isTypeOnly || (named && named.is_type_only)) this.exportedTypes.add(as);
      if (src) this.reexported.push([as, src.value, orig]);
      else if (orig !== null) this.exported.set(as, orig);
    }
  }

  exportDefault(/** @type {forms.ExportDefaultDecl} */ { decl, span }) {
    const node = variantOf(decl)[1];
    const ident = 'id' in node ? node.id : node.ident;
    const name = ident ? ident.sym : 'default';
    this.declare(name, node, span);
    if (!('TsInterfaceDecl' in decl)) this.values.add(name);
    this.exported.set('default', name);
  }
}

/** The modules of a folder that have skeletons, and where their names lead. */
class SkeletonModules {
  constructor(/** @type {import('../program/types').SkeletonWorld} */ world) {
    this.resolve = resolver(world);
    this.names = new Map([...world.skeletons].map(([specifier, { program }]) => [specifier, new Names(program)]));
  }

  /** The declarations of a name of a module. */
  declarations(/** @type {string} */ specifier, /** @type {string} */ name) {
    const names = this.names.get(specifier);
    return (names && names.declared.get(name)) || [];
  }

  /**
   * Where an export of a module is declared. Names that are sought already lead nowhere.
   *
   * @param {string | undefined} specifier
   * @param {string} name
   * @returns {Target | null}
   */
  target(specifier, name, seen = new Set()) {
    const key = `${specifier}\n${name}`;
    const names = specifier === undefined ? undefined : this.names.get(specifier);
    if (specifier === undefined || !names || seen.has(key)) return null;
    seen.add(key);
    const local = names.exported.get(name);
    if (local !== undefined) return this.local(specifier, local, seen);
    const [, text, orig] = names.reexported.find(([as]) => as === name) || [];
    if (text !== undefined && orig !== undefined) return this.other(specifier, text, orig, seen);
    for (const each of name === 'default' ? [] : names.all) {
      const found = this.target(this.resolve(specifier, each), name, seen);
      if (found) return found;
    }
    return null;
  }

  /**
   * Whether an export of a module that stands for a value is exported as a type only, somewhere on the way to its declaration.
   *
   * @param {string | undefined} specifier
   * @param {string} name
   * @returns {boolean}
   */
  isTypeOnly(specifier, name) {
    const target = this.target(specifier, name);
    const own = target && target[0] !== null ? this.names.get(target[0]) : undefined;
    const isValue = !own || !target || target[1] === null || own.values.has(target[1]);
    return isValue && this.passesTypes(specifier, name);
  }

  /**
   * @param {string | undefined} specifier
   * @param {string} name
   * @returns {boolean}
   */
  passesTypes(specifier, name, seen = new Set()) {
    const key = `${specifier}\n${name}`;
    const names = specifier === undefined ? undefined : this.names.get(specifier);
    if (specifier === undefined || !names || seen.has(key)) return false;
    seen.add(key);
    if (names.exportedTypes.has(name)) return true;
    const local = names.exported.get(name);
    const imported = local === undefined || names.declared.has(local) ? undefined : names.imported.get(local);
    if (local !== undefined && names.importedTypes.has(local)) return true;
    const [, text, orig] = imported ? [local, ...imported] : names.reexported.find(([as]) => as === name) || [];
    if (text !== undefined && orig) return this.passesTypes(this.resolve(specifier, text), orig, seen);
    if (local !== undefined || text !== undefined) return false;
    const found = names.all.find((each) => this.target(this.resolve(specifier, each), name));
    return found !== undefined && (names.allTypes.has(found) || this.passesTypes(this.resolve(specifier, found), name, seen));
  }

  /**
   * Where a name of a module is declared: there, or where it is imported from.
   *
   * @param {string} specifier
   * @param {string} name
   * @returns {Target | null}
   */
  local(specifier, name, seen = new Set()) {
    const names = this.names.get(specifier);
    if (!names) return null;
    if (names.declared.has(name)) return [specifier, name];
    const imported = names.imported.get(name);
    return imported ? this.other(specifier, ...imported, seen) : null;
  }

  /**
   * What a module asks of another one, by the text of an import; of what lies in no skeleton the text.
   *
   * @param {string} specifier
   * @param {string} text
   * @param {string | null} name
   * @returns {Target | null}
   */
  other(specifier, text, name, seen = new Set()) {
    const to = this.resolve(specifier, text);
    if (to === undefined || !this.names.has(to)) return [null, `${name === null ? '*' : name} of ${text}`];
    return name === null ? [to, null] : this.target(to, name, seen);
  }

  /**
   * All names that a module exports.
   *
   * @param {string | undefined} specifier
   * @returns {string[]}
   */
  exportsOf(specifier, seen = new Set()) {
    const names = specifier === undefined ? undefined : this.names.get(specifier);
    if (specifier === undefined || !names || seen.has(specifier)) return [];
    seen.add(specifier);
    const behind = names.all.flatMap((text) => this.exportsOf(this.resolve(specifier, text), seen)).filter((it) => it !== 'default');
    return [...new Set([...names.exported.keys(), ...names.reexported.map(([as]) => as), ...behind])];
  }

  /** Where all that a declaration mentions is declared. */
  mentionedBy(/** @type {string} */ specifier, /** @type {string} */ name) {
    const names = this.names.get(specifier);
    return this.declarations(specifier, name).flatMap(({ node }) => {
      const { names: own, imports } = mentioned(node, names && names.scope);
      return [...[...own].map((each) => this.local(specifier, each)), ...imports.map(([text, first]) => this.other(specifier, text, first))];
    });
  }
}

module.exports = { Names, SkeletonModules, mentioned, resolver };
