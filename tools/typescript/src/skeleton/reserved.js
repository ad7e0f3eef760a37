'use strict';
// Properties of functions under words that no variable may have, as `request.delete = ..`. The program makes a variable of each in a namespace, where an export by
// another name is only allowed of an ambient one: so the variable stands beside the namespace, and an ambient block exports it.

const { Names } = require('./modules.js');

const RESERVED = new Set(`break case catch class const continue debugger default delete do else enum export extends false finally for function if import in
  instanceof new null return super switch this throw true try typeof var void while with implements interface let package private protected public static yield
  await eval arguments`.split(/\s+/));
/** @type {forms.Span} */
const NONE = [0, 0];

/** @typedef {forms.TsModuleDecl & { id: { Ident: forms.Ident }, body: { TsModuleBlock: forms.TsModuleBlock } }} Namespace */

const nameOf = (/** @type {forms.VarDeclarator} */ { name }) => (name.Ident ? name.Ident.id.sym : null);
const isReserved = (/** @type {forms.VarDeclarator} */ it) => RESERVED.has(nameOf(it) || '');

/** The variables that an item of a namespace exports; null of another item. */
function variablesOf(/** @type {forms.ModuleItem} */ { ModuleDecl: it }) {
  return (it && it.ExportDecl && it.ExportDecl.decl.Var) || null;
}

/**
 * An item with another declaration.
 *
 * @param {forms.ModuleItem} item
 * @param {forms.Decl} decl
 * @returns {forms.ModuleItem}
 */
function withDeclaration(item, decl) {
  const exported = item.ModuleDecl && item.ModuleDecl.ExportDecl;
  return exported ? { ModuleDecl: { ExportDecl: { ...exported, decl } } } : { Stmt: { Decl: decl } };
}

/** An item that exports variables of a namespace without those of reserved names; null where none is left. */
function withoutReserved(/** @type {forms.ModuleItem} */ item) {
  const found = variablesOf(item);
  const decls = (found && found.decls) || [];
  if (!found || !decls.some(isReserved)) return item;
  const left = decls.filter((it) => !isReserved(it));
  return left.length ? withDeclaration(item, { Var: { ...found, decls: left } }) : null;
}

/**
 * A block of a namespace parted into variables, itself without them, and an ambient block that exports them.
 *
 * @param {forms.ModuleItem} item
 * @param {Namespace} node
 * @param {forms.VarDeclarator[]} decls
 * @param {(name: string) => boolean} isTaken
 * @returns {forms.ModuleItem[]}
 */
function parted(item, node, decls, isTaken) {
  const plain = (/** @type {string} */ sym) => ({ span: NONE, ctxt: 0, sym, optional: false });
  /** @type {Map<string, string>} */
  const names = new Map();
  for (const it of decls) {
    const own = nameOf(it) || '';
    const name = `${node.id.Ident.sym}_${own}`;
    let made = name;
    for (let count = 1; isTaken(made); count++) made = `${name}_${count}`;
    names.set(own, made);
  }
  const renamed = decls.flatMap((it) => {
    const { Ident: binding } = it.name;
    const sym = names.get(nameOf(it) || '');
    return binding && sym ? { ...it, name: { Ident: { ...binding, id: { ...binding.id, sym } } } } : [];
  });
  const specifiers = [...names].map(([name, sym]) => ({ Named: { span: NONE, orig: { Ident: plain(sym) }, exported: { Ident: plain(name) }, is_type_only: false } }));
  const block = (/** @type {forms.ModuleItem[]} */ body) => ({ TsModuleBlock: { ...node.body.TsModuleBlock, body } });
  const rest = (node.body.TsModuleBlock.body || []).flatMap((it) => withoutReserved(it) || []);
  /** @type {forms.ModuleItem} */
  const list = { ModuleDecl: { ExportNamed: { span: NONE, specifiers, src: null, type_only: false, with: null } } };
  return [
    { Stmt: { Decl: { Var: { span: NONE, ctxt: 0, kind: 'Var', declare: false, decls: renamed } } } },
    ...(rest.length ? [withDeclaration(item, { TsModule: { ...node, body: block(rest) } })] : []),
    withDeclaration(item, { TsModule: { ...node, declare: true, body: block([list]) } }),
  ];
}

/** Items of a module or a namespace in which no variable has a reserved name. */
function writable(/** @type {forms.ModuleItem[]} */ items) {
  const declared = (/** @type {forms.ModuleItem} */ item) => (item.ModuleDecl ? item.ModuleDecl.ExportDecl && item.ModuleDecl.ExportDecl.decl : item.Stmt && item.Stmt.Decl);
  const namespaceOf = (/** @type {forms.ModuleItem} */ item) => {
    const node = (declared(item) || { TsModule: undefined }).TsModule;
    return node && node.id.Ident && node.body && node.body.TsModuleBlock ? /** @type {Namespace} */ (node) : null;
  };
  const reservedOf = (/** @type {Namespace | null} */ node) => {
    const body = (node && node.body.TsModuleBlock.body) || [];
    return body.flatMap((it) => ((variablesOf(it) || {}).decls || []).filter(isReserved));
  };
  if (!items.some((it) => reservedOf(namespaceOf(it)).length)) return items;
  const names = new Names({ body: items });
  const isTaken = (/** @type {string} */ name) => names.declared.has(name) || names.imported.has(name);
  return items.flatMap((item) => {
    const node = namespaceOf(item);
    const decls = reservedOf(node);
    return node && decls.length ? parted(item, node, decls, isTaken) : [item];
  });
}

module.exports = { writable };
