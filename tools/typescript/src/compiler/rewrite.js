'use strict';
// Nodes of the compiler that are made from others.

const { whole: ts } = require('./typescript.js');

// The compiler keeps the names of functions that it visits, and fails at a getter in a return type, which it takes for one within another's parameters.
const NO_NAMES = {
  startLexicalEnvironment() {},
  suspendLexicalEnvironment() {},
  resumeLexicalEnvironment() {},
  endLexicalEnvironment() {},
};

/**
 * A node as a call makes it: `make(node, visit, inside)` gets `visit(other)`, which makes another one, and `inside(node)`, the node with its parts as they are
 * made.
 *
 * @template {ts.Node} T
 * @param {T} node
 * @param {(at: ts.Node, visit: (at: ts.Node) => ts.Node, inside: (it: ts.Node) => ts.Node) => ts.Node} make
 * @returns {T}
 */
function rewritten(node, make) {
  /** @type {ts.TransformerFactory<T>} */
  const factory = (context) => {
    const quiet = /** @type {ts.TransformationContext} */ ({ ...context, ...NO_NAMES });
    /** @type {(at: ts.Node) => ts.Node} */
    const visit = (at) => make(at, visit, (it) => ts.visitEachChild(it, visit, quiet));
    return (at) => /** @type {T} */ (visit(at));
  };
  return ts.transform(node, [factory]).transformed[0];
}

module.exports = { rewritten };
