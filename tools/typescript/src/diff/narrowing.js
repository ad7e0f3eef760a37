'use strict';
// What users may do with one version of a value or a type and no longer with another, which assignability passes over: give as many arguments, write a property,
// leave a member out of a subclass.
const { hasModifier } = require('../compiler/modifiers.js');
const { whole: ts } = require('../compiler/typescript.js');

const { SyntaxKind: K } = ts;
// How deep properties are looked into.
const DEEPEST = 4;

/** Whether a property is one that no user writes. */
function isReadonly(/** @type {ts.Symbol} */ symbol) {
  const declarations = symbol.declarations || [];
  const isOne = (/** @type {ts.Declaration} */ it) => hasModifier(it, K.ReadonlyKeyword) || ts.isEnumMember(it)
    || (ts.isVariableDeclaration(it) && Boolean(it.parent.flags & ts.NodeFlags.Const));
  const isGetter = declarations.some((it) => ts.isGetAccessorDeclaration(it)) && !declarations.some((it) => ts.isSetAccessorDeclaration(it));
  return isGetter || (declarations.length > 0 && declarations.every(isOne));
}

/** The most arguments that some signatures take; -1 where there are none. */
function mostArguments(/** @type {readonly ts.Signature[]} */ signatures) {
  const isOpen = (/** @type {ts.Signature} */ { declaration }) => !declaration || [...(declaration.parameters || [])].some((it) => 'dotDotDotToken' in it && it.dotDotDotToken);
  return Math.max(-1, ...signatures.map((it) => (isOpen(it) ? Infinity : it.parameters.length)));
}

/** The abstract members that a class has itself. */
function abstractMembers(/** @type {ts.Symbol} */ symbol) {
  const all = (symbol.declarations || []).flatMap((it) => (ts.isClassDeclaration(it) ? [...it.members] : []));
  return all.filter((it) => hasModifier(it, K.AbstractKeyword)).map((it) => (it.name ? it.name.getText() : ''));
}

class Narrowing {
  constructor(/** @type {ts.TypeChecker} */ checker, /** @type {(node: ts.Node) => boolean} */ isOurs) {
    this.checker = checker;
    this.isOurs = isOurs;
    this.seen = new Set();
  }

  /**
   * The first thing that is narrower in a type than it was, as a text; null where nothing is.
   *
   * @returns {string | null}
   */
  of(/** @type {ts.Type} */ old, /** @type {ts.Type} */ now, /** @type {string} */ name, depth = 0) {
    if (old === now || depth > DEEPEST || this.seen.has(old)) return null;
    this.seen.add(old);
    for (const kind of [ts.SignatureKind.Call, ts.SignatureKind.Construct]) {
      const [before, after] = [old, now].map((it) => mostArguments(this.checker.getSignaturesOfType(it, kind)));
      if (before >= 0 && after >= 0 && after < before) return `${kind === ts.SignatureKind.Call ? name : `new ${name}`} takes fewer arguments`;
    }
    const lost = this.lostIndex(old, now);
    if (lost) return `${name} has no index signature for ${lost} any more`;
    for (const property of this.checker.getPropertiesOfType(old)) {
      const found = this.ofProperty(property, now, name, depth);
      if (found) return found;
    }
    return null;
  }

  /** The keys of an index signature that an object type has no more. */
  lostIndex(/** @type {ts.Type} */ old, /** @type {ts.Type} */ now) {
    if (!(old.flags & now.flags & ts.TypeFlags.Object)) return null;
    const [before, after] = [old, now].map((it) => this.checker.getIndexInfosOfType(it).map(({ keyType }) => this.checker.typeToString(keyType)));
    return before.find((it) => !after.includes(it) && !after.includes('string')) || null;
  }

  /** @returns {string | null} */
  ofProperty(/** @type {ts.Symbol} */ property, /** @type {ts.Type} */ now, /** @type {string} */ name, /** @type {number} */ depth) {
    const [declaration] = property.declarations || [];
    const other = this.checker.getPropertyOfType(now, property.name);
    if (!declaration || !other || !other.declarations || !this.isOurs(declaration)) return null;
    const shown = `${name}.${property.name}`;
    if (isReadonly(other) && !isReadonly(property)) return `${shown} can be written no more`;
    const typeOf = (/** @type {ts.Symbol} */ it) => this.checker.getTypeOfSymbolAtLocation(it, (it.declarations || [])[0]);
    return this.of(typeOf(property), typeOf(other), shown, depth + 1);
  }
}

/** What subclasses of a class lack since it has become abstract in more; null where it has not. */
function abstraction(/** @type {ts.Symbol} */ old, /** @type {ts.Symbol} */ now) {
  const before = new Set(abstractMembers(old));
  const added = abstractMembers(now).filter((it) => !before.has(it));
  return added.length ? `${added[0]} is a new abstract member` : null;
}

module.exports = { Narrowing, abstraction };
