'use strict';
// What assignability does not see: rules on the syntax of the declarations of two versions. Each says why users of the old one may not compile with the new one.
const { hasModifier, modifiersOf } = require('../compiler/modifiers.js');
const { whole: ts } = require('../compiler/typescript.js');

const { SyntaxKind: K } = ts;

/** @typedef {{ breaks: string[], isAddition: boolean }} Found what breaks users, and whether they have more than before */
/** @typedef {ts.SignatureDeclaration} Signature */

/** @type {(node: ts.Node | undefined) => node is ts.Node} */
const isNode = (node) => node !== undefined;
const isHidden = (/** @type {ts.Node} */ node) => hasModifier(node, K.PrivateKeyword) || hasModifier(node, K.ProtectedKeyword);
const isPrivateName = (/** @type {ts.Node} */ node) => ts.isClassElement(node) && node.name !== undefined && ts.isPrivateIdentifier(node.name);
const nameText = (/** @type {ts.NamedDeclaration} */ { name }) => (name ? name.getText().replace(/^(['"])(.*)\1$/, '$2') : '');

/** The members of a class that make it a type of its own: no other value is assignable to it. */
function nominalMembers(/** @type {ts.ClassDeclaration} */ node) {
  return node.members.filter((it) => !ts.isConstructorDeclaration(it) && (isHidden(it) || isPrivateName(it)));
}

/** What tells a member apart from others of its class or type. */
function keyOf(/** @type {ts.Node} */ node) {
  if (ts.isConstructorDeclaration(node) || ts.isConstructSignatureDeclaration(node)) return 'new';
  if (ts.isCallSignatureDeclaration(node)) return '()';
  if (ts.isIndexSignatureDeclaration(node)) return `[${node.parameters.map((it) => it.type && it.type.getText()).join()}]`;
  const kind = ts.isSetAccessorDeclaration(node) ? 'set ' : '';
  return `${hasModifier(node, K.StaticKeyword) ? 'static ' : ''}${kind}${nameText(/** @type {ts.NamedDeclaration} */ (node))}`;
}

/**
 * Nodes by their keys, in order.
 *
 * @template {ts.Node} T
 * @param {readonly T[]} nodes
 * @param {(node: T) => string} key
 */
function grouped(nodes, key) {
  /** @type {Map<string, T[]>} */
  const groups = new Map();
  for (const it of nodes) groups.set(key(it), [...groups.get(key(it)) || [], it]);
  return groups;
}

const thisParameter = (/** @type {Signature} */ { parameters }) => [...parameters].find((it) => it.name.getText() === 'this');
const otherParameters = (/** @type {Signature} */ { parameters }) => [...parameters].filter((it) => it.name.getText() !== 'this');

/** The text of a signature without the names of its parameters. */
function shape(/** @type {Signature} */ node) {
  const parameters = [...node.parameters].map((it) => `${it.dotDotDotToken ? '...' : ''}${it.questionToken ? '?' : ''}${it.type ? it.type.getText() : ''}`);
  return `<${(node.typeParameters || []).map((it) => it.getText()).join()}>(${parameters.join()}): ${node.type ? node.type.getText() : ''}`;
}

/** Whether a new overload stands before one that was there. */
function hasOverloadBefore(/** @type {Signature[]} */ old, /** @type {Signature[]} */ now) {
  const [before, after] = [old.map(shape), now.map(shape)];
  if (after.length <= before.length) return false;
  const last = Math.max(...before.map((it) => after.lastIndexOf(it)));
  return after.slice(0, last).some((it) => !before.includes(it));
}

/** A literal that is the value of a constant or of a readonly property, and so its type. */
const literalOf = (/** @type {ts.Node} */ node) => (ts.isPropertyDeclaration(node) && !node.type && node.initializer ? node.initializer.getText() : undefined);

class Rules {
  constructor() {
    /** @type {Found} */
    this.found = { breaks: [], isAddition: false };
  }

  breaks(/** @type {boolean | undefined} */ holds, /** @type {string} */ why) {
    if (holds) this.found.breaks.push(why);
  }

  adds(/** @type {boolean} */ holds) {
    this.found.isAddition = this.found.isAddition || holds;
  }

  /** All declarations of one name. */
  declarations(/** @type {ts.Node[]} */ old, /** @type {ts.Node[]} */ now, /** @type {string} */ name) {
    const both = (/** @type {(node: ts.Node) => boolean} */ holds) => [old, now].map((it) => it.filter(holds));
    /** @type {(node: ts.Node) => node is ts.ClassDeclaration | ts.InterfaceDeclaration} */
    const hasMembers = (node) => ts.isClassDeclaration(node) || ts.isInterfaceDeclaration(node);
    const [classes, others] = both(ts.isClassDeclaration);
    if (classes.length && others.length) this.nominality(/** @type {ts.ClassDeclaration} */ (classes[0]), /** @type {ts.ClassDeclaration} */ (others[0]), name);
    const members = [old, now].map((it) => it.filter(hasMembers).flatMap((each) => [.../** @type {readonly ts.Node[]} */ (each.members)]));
    this.members(members[0], members[1], name);
    const functions = /** @type {ts.FunctionDeclaration[][]} */ (both(ts.isFunctionDeclaration));
    this.signatures(functions[0], functions[1], name);
    const [[before], [after]] = [old, now];
    this.typeParameters(before, after, name);
    const typeOf = (/** @type {ts.Node} */ it) => (ts.isVariableDeclaration(it) || ts.isTypeAliasDeclaration(it) ? it.type : undefined);
    this.types(typeOf(before), typeOf(after), name);
    const namespaces = [old, now].map((it) => it.flatMap((each) => (ts.isModuleDeclaration(each) && each.body && ts.isModuleBlock(each.body) ? [...each.body.statements] : [])));
    this.statements(namespaces[0], namespaces[1], name);
  }

  /** The statements of namespaces. */
  statements(/** @type {ts.Statement[]} */ old, /** @type {ts.Statement[]} */ now, /** @type {string} */ name) {
    /** @type {(node: ts.Statement) => readonly ts.Node[]} */
    const declared = (node) => (ts.isVariableStatement(node) ? node.declarationList.declarations : [node]);
    const [before, after] = [old, now].map((it) => grouped(it.flatMap(declared), (each) => nameText(/** @type {ts.NamedDeclaration} */ (each))));
    for (const [key, nodes] of before) {
      const others = after.get(key);
      if (key && others) this.declarations(nodes, others, `${name}.${key}`);
    }
  }

  nominality(/** @type {ts.ClassDeclaration} */ old, /** @type {ts.ClassDeclaration} */ now, /** @type {string} */ name) {
    const [before, after] = [old, now].map(nominalMembers);
    this.breaks(!before.length && after.length > 0, `${name} has its first private or protected member, so no other value is a ${name} any more`);
    this.adds(before.length > 0 && !after.length);
  }

  members(/** @type {ts.Node[]} */ old, /** @type {ts.Node[]} */ now, /** @type {string} */ name) {
    const [before, after] = [old, now].map((it) => grouped(it, keyOf));
    for (const [key, nodes] of before) {
      const others = after.get(key);
      if (others) this.member(nodes, others, key === '()' ? name : key === 'new' ? `new ${name}` : `${name}.${key}`);
    }
  }

  member(/** @type {ts.Node[]} */ old, /** @type {ts.Node[]} */ now, /** @type {string} */ name) {
    const [[before], [after]] = [old, now];
    if (hasModifier(before, K.PrivateKeyword)) return;
    this.breaks(hasModifier(before, K.ProtectedKeyword) && !isHidden(after), `${name} is public now, and subclasses have it protected`);
    this.adds(hasModifier(before, K.AbstractKeyword) && !hasModifier(after, K.AbstractKeyword));
    const literals = [before, after].map(literalOf);
    this.breaks(literals[0] !== undefined && literals[1] === undefined && !ts.isMethodDeclaration(after), `${name} has the type of a literal no more`);
    const isSignature = (/** @type {ts.Node} */ it) => ts.isMethodDeclaration(it) || ts.isMethodSignature(it) || ts.isConstructorDeclaration(it) || ts.isCallSignatureDeclaration(it) || ts.isConstructSignatureDeclaration(it) || ts.isSetAccessorDeclaration(it);
    const signatures = [old, now].map((it) => /** @type {Signature[]} */ (it.filter(isSignature)));
    this.signatures(signatures[0], signatures[1], name);
    const typeOf = (/** @type {ts.Node} */ it) => (ts.isPropertyDeclaration(it) || ts.isPropertySignature(it) || ts.isGetAccessorDeclaration(it) || ts.isIndexSignatureDeclaration(it) ? it.type : undefined);
    this.types(typeOf(before), typeOf(after), name);
  }

  signatures(/** @type {Signature[]} */ old, /** @type {Signature[]} */ now, /** @type {string} */ name) {
    this.breaks(hasOverloadBefore(old, now), `an overload of ${name} stands before others, and is taken first`);
    old.forEach((it, at) => {
      const other = now.find((each) => shape(each) === shape(it)) || now[at];
      if (other) this.signature(it, other, name);
    });
  }

  signature(/** @type {Signature} */ old, /** @type {Signature} */ now, /** @type {string} */ name) {
    this.breaks(!thisParameter(old) && thisParameter(now) !== undefined, `${name} needs a \`this\``);
    const results = [old, now].map((it) => it.type);
    const isThis = results.map((it) => it !== undefined && it.kind === K.ThisType);
    this.breaks(isThis[0] && !isThis[1], `${name} does not return \`this\` any more`);
    this.adds(!isThis[0] && isThis[1]);
    const asserts = results.map((it) => it !== undefined && ts.isTypePredicateNode(it) && it.assertsModifier !== undefined);
    this.breaks(asserts[0] && !asserts[1], `${name} asserts nothing any more`);
    this.typeParameters(old, now, name);
    const parameters = [old, now].map(otherParameters);
    parameters[0].forEach((it, at) => this.types(it.type, parameters[1][at] && parameters[1][at].type, `${name}(${it.name.getText()})`));
    this.types(results[0], results[1], name);
  }

  typeParameters(/** @type {ts.Node} */ old, /** @type {ts.Node} */ now, /** @type {string} */ name) {
    const [before, after] = [old, now].map((it) => [.../** @type {{ typeParameters?: readonly ts.TypeParameterDeclaration[] }} */ (it).typeParameters || []]);
    before.forEach((it, at) => {
      const other = after[at];
      if (!other) return;
      this.breaks(it.default !== undefined && other.default === undefined, `the type parameter ${other.name.text} of ${name} has no default any more`);
      for (const word of modifiersOf(other).map((each) => each.getText())) {
        this.breaks(!modifiersOf(it).some((each) => each.getText() === word), `the type parameter ${other.name.text} of ${name} is \`${word}\` now`);
      }
    });
  }

  /** Types at the same place. Below types of other forms nothing is compared: the compiler does that. */
  types(/** @type {ts.Node | undefined} */ old, /** @type {ts.Node | undefined} */ now, /** @type {string} */ name) {
    if (!old || !now || old.getText() === now.getText()) return;
    this.breaks(old.kind === K.AnyKeyword && now.kind !== K.AnyKeyword, `${name} is of a type other than \`any\``);
    if (old.kind !== now.kind) return;
    if (ts.isFunctionTypeNode(old) || ts.isConstructorTypeNode(old)) this.signature(old, /** @type {Signature} */ (now), name);
    else if (ts.isTypeLiteralNode(old)) this.members([...old.members], [.../** @type {ts.TypeLiteralNode} */ (now).members], name);
    else this.parts(old, now, name);
  }

  parts(/** @type {ts.Node} */ old, /** @type {ts.Node} */ now, /** @type {string} */ name) {
    const [before, after] = [old, now].map((it) => {
      /** @type {ts.Node[]} */
      const all = [];
      ts.forEachChild(it, (each) => {
        all.push(each);
      });
      return all.filter(isNode);
    });
    if (before.length === after.length) before.forEach((it, at) => this.types(it, after[at], name));
  }
}

/**
 * What breaks the users of some declarations of one name, and whether they have more, as far as their syntax says it.
 *
 * @param {ts.Node[]} old
 * @param {ts.Node[]} now
 * @param {string} name
 * @returns {Found}
 */
function byRules(old, now, name) {
  const rules = new Rules();
  rules.declarations(old, now, name);
  return rules.found;
}

module.exports = { byRules };
