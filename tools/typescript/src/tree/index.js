'use strict';
// TypeScript's tree to the program's (docs/FORMATS.md): swc's forms, positions in bytes, and scope numbers.

const { textOf, ts } = require('../compiler/typescript.js');
const { classIn, functionIn, functionOf } = require('./from-typescript/classes.js');
const { commentsOf } = require('./from-typescript/comments.js');
const { Converter, form, TOP, UNRESOLVED } = require('./from-typescript/converter.js');
const { declaration, items } = require('./from-typescript/declarations.js');
const { expression, propName } = require('./from-typescript/expressions.js');
const { parts } = require('./from-typescript/parts.js');
const { bodyOf, functionBody } = require('./from-typescript/statements.js');
const { annotation } = require('./from-typescript/types.js');

/** @typedef {import('./types').TreeOptions} TreeOptions */
/** @typedef {import('./offsets.js').Offsets} Offsets */

const { SyntaxKind: K } = ts;

Object.assign(parts, { annotation, bodyOf, classIn, declaration, expression, functionBody, functionIn, functionOf, propName });

/** Whether a file is a module: it imports, exports, is a namespace to others, or has `import.meta` or an `await` that stands in no function. */
function isModule(/** @type {ts.SourceFile} */ sourceFile) {
  if (sourceFile.externalModuleIndicator) return true;
  if (sourceFile.statements.some((it) => it.kind === K.ImportEqualsDeclaration || it.kind === K.NamespaceExportDeclaration)) return true;
  return hasTopLevelAwait(sourceFile);
}

function hasTopLevelAwait(/** @type {ts.SourceFile} */ sourceFile) {
  if (!/\bawait\b/.test(sourceFile.text)) return false;
  /** @type {(node: ts.Node) => boolean} */
  const find = (node) => {
    if (ts.isFunctionLike(node) || ts.isClassLike(node)) return false;
    if (ts.isAwaitExpression(node) || (ts.isForOfStatement(node) && node.awaitModifier)) return true;
    return ts.forEachChild(node, find) || false;
  };
  return find(sourceFile);
}

/** @returns {import('./types').TreeError[]} */
function syntaxErrors(/** @type {ts.SourceFile} */ sourceFile, /** @type {Offsets} */ offsets) {
  return (sourceFile.parseDiagnostics || []).map((it) => ({
    offset: it.start,
    position: offsets.of(it.start),
    message: textOf(it.messageText),
  }));
}

/** @returns {forms.Program} */
function programOf(/** @type {Converter} */ c, /** @type {ts.SourceFile} */ sourceFile) {
  const { statements, text } = sourceFile;
  const made = items(c, statements);
  /** @type {forms.Span} */
  const span = statements.length ? c.range(c.start(statements[0]), statements[statements.length - 1].end) : [1, 1];
  const shebang = text.startsWith('#!') ? text.slice(2, text.search(/[\r\n]|$/)) : null;
  if (isModule(sourceFile)) return { Module: form({ span, body: made, shebang }) };
  return { Script: form({ span, body: made.flatMap((it) => it.Stmt || []), shebang }) };
}

/**
 * The program's tree of a parsed file.
 *
 * `short` cuts away what no rule looks at: the bodies of functions but for how they return and what names the type, values behind written types, and
 * statements that declare and assign nothing. Without it the tree holds the whole text. Under the `rules` of deno nothing names the type of a body.
 *
 * `errors` are the parser's, and the forms that the program's tree does not have, each with its place; `faults` what is wrong with forms that are read.
 *
 * @returns {import('./types').Tree}
 */
function toTree(/** @type {ts.SourceFile} */ sourceFile, /** @type {TreeOptions} */ options = {}) {
  const c = new Converter(sourceFile, options);
  const errors = syntaxErrors(sourceFile, c.offsets);
  const nothing = { program: null, comments: { leading: [], trailing: [] }, offsets: c.offsets, faults: [] };
  if (errors.length) return { ...nothing, errors };
  let program;
  try {
    program = programOf(c, sourceFile);
  } catch (error) {
    if (!(error instanceof RangeError)) throw error;
    return { ...nothing, errors: [{ offset: 0, position: 1, message: 'this is nested deeper than can be read' }] };
  }
  return {
    program,
    comments: commentsOf(sourceFile, c.offsets, c.short),
    unresolvedContext: UNRESOLVED,
    topLevelContext: TOP,
    offsets: c.offsets,
    sources: c.sources,
    errors: c.errors,
    faults: c.faults,
  };
}

// No tree has what comments say by tags; a newer compiler does not read it then.
const { JSDocParsingMode: MODES } = /** @type {{ JSDocParsingMode?: { ParseNone: number } }} */ (ts);
const PARSED = { languageVersion: ts.ScriptTarget.ESNext, ...(MODES && { jsDocParsingMode: MODES.ParseNone }) };

/** Parses a text as the compiler does a file of that name. The nodes do not know what is around them, which takes a third of the time less. */
function parse(/** @type {string} */ name, /** @type {string} */ text) {
  return ts.createSourceFile(name, text, PARSED, false);
}

module.exports = { toTree, parse };
