'use strict';
// What the names in the values of skeletons stand for, across the modules of a folder.

const { Names, SkeletonModules } = require('./modules.js');

/** @typedef {import('../program/types').SkeletonWorld} SkeletonWorld */
/** @typedef {import('./types').Found} Found */
/** @typedef {import('./types').Declared} Declared */

/** @type {Found} */
const OTHER = { form: 'other' };
/** @type {Found} */
const UNKNOWN = { form: 'unknown' };

/** The block of a namespace, behind all its names. */
function blockOf(/** @type {forms.TsModuleDecl} */ node) {
  let body = node.body;
  while (body && body.TsNamespaceDecl) body = body.TsNamespaceDecl.body;
  return body && body.TsModuleBlock;
}

/** The items of all blocks of a namespace. */
function itemsOfAll(/** @type {forms.Part[]} */ nodes) {
  return nodes.flatMap((it) => (it.id && (blockOf(/** @type {forms.TsModuleDecl} */ (it)) || {}).body) || []);
}

/** A static property of a class, or undefined. */
function staticProperty(/** @type {forms.Class} */ node, /** @type {string} */ name) {
  const found = (node.body || []).find(({ ClassProp: it }) => it && it.is_static && it.key.Ident && it.key.Ident.sym === name);
  return found && found.ClassProp;
}

/** Whether a type is that of a literal, which the program wrote in place of the literal. */
function isMade(/** @type {forms.TsTypeAnn} */ { span, type_ann }) {
  return Boolean(type_ann.TsLitType && !span[0]);
}

/** The names of one module, of the namespaces around a place, and of the parameters there. */
class Scope {
  constructor(/** @type {SkeletonModules} */ modules, /** @type {string} */ specifier, /** @type {Map<string, Declared[]>[]} */ bodies = []) {
    this.modules = modules;
    this.specifier = specifier;
    this.bodies = bodies;
  }

  /** The items of all blocks of a namespace that the module, or the namespace around this place, declares. */
  blocks(/** @type {string} */ name) {
    return itemsOfAll(this.name(name).nodes || []);
  }

  /**
   * The scope in a namespace.
   *
   * @returns {Scope}
   */
  inside(/** @type {forms.ModuleItem[]} */ items) {
    return new Scope(this.modules, this.specifier, [new Names({ body: items }).declared, ...this.bodies]);
  }

  /**
   * The scope of a function's parameters.
   *
   * @returns {Scope}
   */
  within(/** @type {(forms.Param | forms.Pat)[] | undefined} */ params) {
    /** @type {Map<string, Declared[]>} */
    const own = new Map();
    for (const it of params || []) {
      const { Ident: found } = 'pat' in it ? it.pat : it;
      if (found) own.set(found.id.sym, [{ name: found.id.sym, node: { name: { Ident: found }, isParameter: true }, span: found.id.span }]);
    }
    return new Scope(this.modules, this.specifier, [own, ...this.bodies]);
  }

  /** Whether the module has a name at its top. */
  isTaken(/** @type {string} */ name) {
    const names = this.modules.names.get(this.specifier);
    return names !== undefined && (names.declared.has(name) || names.imported.has(name));
  }

  /** Whether a key in brackets may be any text or symbol: the compiler declares no member of such a key. */
  isAnyKey(/** @type {{ Computed?: forms.ComputedPropName }} */ { Computed: computed }) {
    if (!computed || !(computed.expr.Ident || computed.expr.Member)) return false;
    const { form, type } = this.find(computed.expr);
    if (form !== 'typed' || !type) return false;
    const { TsUnionOrIntersectionType: parts } = type;
    return ((parts && parts.TsUnionType && parts.TsUnionType.types) || [type]).some((it) => it.TsKeywordType);
  }

  /**
   * What a value that is a name, or a name with dots, stands for: see `ValueTypes`.
   *
   * @returns {Found}
   */
  find(/** @type {forms.Expr} */ value) {
    if (value.Ident) return this.name(value.Ident.sym);
    if (!value.Member) return UNKNOWN;
    const { obj, prop } = value.Member;
    return prop.Ident && (obj.Ident || obj.Member) ? this.member(this.find(obj), prop.Ident.sym) : UNKNOWN;
  }

  /** @returns {Found} */
  name(/** @type {string} */ sym) {
    const body = this.bodies.find((it) => it.has(sym));
    const declared = (body && body.get(sym)) || this.modules.declarations(this.specifier, sym);
    if (declared.length) return this.classify(declared);
    const target = this.modules.local(this.specifier, sym);
    const names = this.modules.names.get(this.specifier);
    return names && names.imported.has(sym) ? this.target(target) : OTHER;
  }

  /**
   * What an import leads to.
   *
   * @returns {Found}
   */
  target(/** @type {import('./types').Target | null} */ found) {
    const [specifier, name] = found || [null, null];
    if (specifier === null) return UNKNOWN;
    if (name === null) return { form: 'module', specifier };
    return new Scope(this.modules, specifier).classify(this.modules.declarations(specifier, name));
  }

  /** @returns {Found} */
  classify(/** @type {Declared[]} */ declared) {
    const [{ node }] = declared;
    const { name, init, ident } = node;
    if ('TsEntityName' in node || 'TsExternalModuleRef' in node) return UNKNOWN;
    const isDeclaration = node.id || node.class || node.function || ident !== undefined;
    const value = /** @type {forms.Expr} */ (node);
    const variable = name && typeof name === 'object' && 'Ident' in name ? /** @type {forms.BindingIdent | undefined} */ (name.Ident) : undefined;
    if (!variable) return { form: isDeclaration ? 'other' : 'value', value, scope: this, nodes: declared.map((it) => it.node) };
    const { type_ann, id } = variable;
    if (type_ann) return { form: 'typed', type: type_ann.type_ann, isMade: isMade(type_ann), isSaid: Boolean(node.isParameter && !id.optional) };
    return init ? { form: 'value', value: /** @type {forms.Expr} */ (init), scope: this } : { form: node.isParameter ? 'unknown' : 'other' };
  }

  /** @returns {Found} */
  member(/** @type {Found} */ base, /** @type {string} */ name) {
    if (base.form === 'unknown') return UNKNOWN;
    if (base.form === 'module') return this.target(this.modules.target(base.specifier, name));
    for (const node of base.nodes || []) {
      if (node.members) return { form: 'member', name, nodes: base.nodes, scope: base.scope };
      const property = node.class && staticProperty(/** @type {forms.Class} */ (node.class), name);
      if (property && property.value) return UNKNOWN;
      if (property && property.type_ann && isMade(property.type_ann)) return { form: 'typed', type: property.type_ann.type_ann, isMade: true };
    }
    // What any block of a namespace declares, beside what the others do.
    const items = itemsOfAll(base.nodes || []);
    const declared = new Names({ body: items }).declared.get(name);
    if (declared && base.scope) return base.scope.inside(items).classify(declared);
    return OTHER;
  }
}

/** The scopes of the modules that have skeletons, by their specifiers. */
function scopesOf(/** @type {SkeletonWorld} */ world) {
  const modules = new SkeletonModules(world);
  return (/** @type {string} */ specifier) => new Scope(modules, specifier);
}

module.exports = { Scope, blockOf, isMade, scopesOf };
