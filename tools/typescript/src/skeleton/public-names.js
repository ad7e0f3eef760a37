'use strict';
// The public names of a package, as its skeletons show them, and what each stands for: its declarations, and those that they lead to.
const { print } = require('../tree/print/index.js');
const { Names, SkeletonModules } = require('./modules.js');

/** @typedef {import('./types').PublicName} PublicName */
/** @typedef {import('./types').Target} Target */
/** @typedef {import('../program/types').SkeletonWorld} SkeletonWorld */

/** The part of an item that declares a name alone: of a variable statement the declarator. */
function partOf(/** @type {forms.ModuleItem} */ item, /** @type {string} */ name) {
  const exported = item.ModuleDecl && item.ModuleDecl.ExportDecl;
  const decl = exported ? exported.decl : item.Stmt && item.Stmt.Decl;
  if (!decl || !decl.Var) return item;
  const decls = (decl.Var.decls || []).filter((it) => it.name.Ident && it.name.Ident.id.sym === name);
  const made = { Var: { ...decl.Var, decls: decls.length ? decls : decl.Var.decls } };
  return exported ? { ModuleDecl: { ExportDecl: { ...exported, decl: made } } } : { Stmt: { Decl: made } };
}

/** The public names of a folder, and what they lead to. */
class PublicNames {
  constructor(/** @type {SkeletonWorld} */ world) {
    this.world = world;
    this.modules = new SkeletonModules(world);
  }

  /** The text of a declaration, without comments. */
  text(/** @type {string} */ specifier, /** @type {string} */ name) {
    const skeleton = this.world.skeletons.get(specifier);
    if (!skeleton || !this.modules.declarations(specifier, name).length) return '';
    const holds = (/** @type {forms.ModuleItem} */ item) => new Names({ body: [item] }).declared.has(name);
    const body = (skeleton.program.body || []).filter(holds).map((item) => partOf(item, name));
    return print({ Module: { ...skeleton.program, body } }, null, { asWritten: true, isDeclaration: /\.d\.[cm]?ts$/.test(specifier) });
  }

  /**
   * What a target leads to: its text and those of all that it mentions, by where they are declared.
   *
   * @param {Target} target
   * @param {Map<string, string>} found
   * @returns {Map<string, string>}
   */
  closure(target, found = new Map()) {
    const [specifier, name] = target;
    const key = target.join('\n');
    if (found.has(key)) return found;
    if (specifier === null) return found.set(key, name || '');
    if (name === null) {
      const names = this.modules.exportsOf(specifier);
      found.set(key, [...names].sort().join(' '));
      for (const each of names) this.follow(this.modules.target(specifier, each), found);
      return found;
    }
    found.set(key, this.text(specifier, name));
    for (const each of this.modules.mentionedBy(specifier, name)) this.follow(each, found);
    return found;
  }

  follow(/** @type {Target | null} */ target, /** @type {Map<string, string>} */ found) {
    if (target) this.closure(target, found);
  }

  /** The name of a module, as it is shown. */
  file(/** @type {string} */ specifier) {
    const file = this.world.files.get(specifier);
    return file ? file.name : specifier;
  }

  /** All public names, each under its entry point, with where it is declared and what it leads to. */
  all() {
    /** @type {Map<string, PublicName>} */
    const found = new Map();
    for (const { name: owner, url, exports } of this.world.info.packages) {
      for (const [key, file] of exports) {
        const specifier = new URL(file, url).href;
        for (const name of this.modules.exportsOf(specifier)) {
          const target = this.modules.target(specifier, name) || /** @type {Target} */ ([null, name]);
          const entry = key === '.' ? '' : ` of ${key}`;
          const shown = this.world.info.packages.length > 1 ? `${owner}: ${name}${entry}` : `${name}${entry}`;
          const module = this.file(target[0] === null ? specifier : target[0]);
          found.set(shown, { owner, at: { specifier, name }, module, target, closure: this.closure(target), isTypeOnly: this.modules.isTypeOnly(specifier, name) });
        }
      }
    }
    return found;
  }
}

/** The public names of a folder that was analysed. */
function publicNames(/** @type {SkeletonWorld} */ world) {
  return new PublicNames(world).all();
}

module.exports = { publicNames };
