'use strict';
// The modifiers of nodes, which the compiler's types do not have for all nodes that may have some.

/** The modifiers of a node, decorators among them, in the order of the text. */
function modifiersOf(/** @type {ts.Node} */ node) {
  const { modifiers = [] } = /** @type {{ modifiers?: readonly ts.ModifierLike[] }} */ (node);
  return modifiers;
}

/** Whether a node has a modifier of a kind. */
function hasModifier(/** @type {ts.Node} */ node, /** @type {ts.SyntaxKind} */ kind) {
  return modifiersOf(node).some((it) => it.kind === kind);
}

module.exports = { hasModifier, modifiersOf };
