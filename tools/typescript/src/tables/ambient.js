'use strict';
// Declarations of a declaration file, or of an ambient namespace, are exported without a word where no list of exports stands
// beside them. Since a list goes from a skeleton, the word is written in here.

/** Whether a body says itself what it exports, by a list, a default or an assignment. */
function saysExports(/** @type {forms.ModuleItem[]} */ items) {
  return items.some(({ ModuleDecl: it }) => it && (it.ExportNamed || it.ExportAll || it.TsExportAssignment || it.ExportDefaultExpr));
}

function spanOf(/** @type {forms.Decl} */ decl) {
  const [node] = Object.values(decl);
  return (node.class || node.function || node).span;
}

function isNamed(/** @type {forms.Decl} */ { TsModule: it }) {
  return !it || Boolean(it.id.Ident && !it.global);
}

function blockOf(/** @type {forms.TsModuleDecl} */ node) {
  let body = node.body;
  while (body && body.TsNamespaceDecl) body = body.TsNamespaceDecl.body;
  return body && body.TsModuleBlock;
}

function isExported(/** @type {forms.ModuleItem} */ item) {
  return Boolean(item.ModuleDecl && item.ModuleDecl.ExportDecl);
}

/** The declaration of an item that has no word before it. */
function declOf(/** @type {forms.ModuleItem} */ { Stmt: it }) {
  return it && it.Decl && isNamed(it.Decl) ? it.Decl : null;
}

function isPlain(/** @type {forms.ModuleItem} */ item) {
  return Boolean(declOf(item));
}

/**
 * The items of a body with the word `export` before each declaration.
 *
 * @returns {forms.ModuleItem[]}
 */
function exported(/** @type {forms.ModuleItem[]} */ items) {
  return items.map((item) => {
    const decl = declOf(item);
    return !decl ? item : { ModuleDecl: { ExportDecl: { span: spanOf(decl), decl } } };
  });
}

/** Goes through the namespaces of a body. One that has the word before some declarations alone gets it before all. */
function explicitBlocks(/** @type {forms.ModuleItem[]} */ items, /** @type {boolean} */ isAmbient) {
  for (const item of items) {
    const exportedDecl = item.ModuleDecl && item.ModuleDecl.ExportDecl;
    const decl = exportedDecl ? exportedDecl.decl : item.Stmt && item.Stmt.Decl;
    const node = decl && decl.TsModule;
    const block = node && node.id.Ident && !node.global && blockOf(node);
    if (!block || !block.body) continue;
    const isInside = isAmbient || Boolean(node.declare);
    explicitBlocks(block.body, isInside);
    if (isInside && !saysExports(block.body) && block.body.some(isExported)) block.body = exported(block.body);
  }
}

/** Writes the implied exports into a program. */
function writeExports(/** @type {forms.Program} */ program, /** @type {boolean} */ isDeclaration) {
  const { Module } = program;
  if (!Module || !Module.body) return;
  explicitBlocks(Module.body, isDeclaration);
  if (isDeclaration && !saysExports(Module.body)) Module.body = exported(Module.body);
}

/**
 * Whether a printed ambient body needs `export {}`, since a declaration of it is not exported. In a namespace that is known by
 * another one that is; in a module `writeExports` has written the word wherever it was implied.
 */
function needsList(/** @type {forms.ModuleItem[]} */ items, /** @type {boolean} */ isModule) {
  return !saysExports(items) && items.some(isPlain) && (isModule || items.some(isExported));
}

module.exports = { writeExports, saysExports, needsList };
