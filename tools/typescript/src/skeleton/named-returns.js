'use strict';
// How many return types of skeletons are those that the only return of a body names.
const { traitsOf } = require('../program/answers.js');
const { partsOf } = require('../tree/walk.js');

/** @typedef {import('../program/types').SkeletonWorld} SkeletonWorld */
/** @typedef {import('../program/types').SourceFile} SourceFile */

const COMMENTS = /\/\/[^\n\r]*|\/\*[^]*?\*\//g;
// What stands between the parameters of an arrow and its body, if that is a block.
const TO_BLOCK = /^[^=]*=>\s*\{/;

/** Whether a type is `void`, which stands where nothing is returned. */
const isVoid = (/** @type {forms.TsType | undefined} */ type) => Boolean(type && type.TsKeywordType && type.TsKeywordType.kind === 'TsVoidKeyword' && !type.TsKeywordType.span[0]);

/** Whether the program wrote a return type that says that something is returned. */
function isNamed(/** @type {forms.TsTypeAnn | null | undefined} */ type) {
  if (!type || type.span[0]) return false;
  const { TsTypeRef: made } = type.type_ann;
  const [inner] = (made && !made.span[0] && made.type_params && made.type_params.params) || [];
  return !isVoid(type.type_ann) && !isVoid(inner);
}

/** The last place of a part. */
function endOf(/** @type {forms.Part} */ node) {
  /** @type {number[]} */
  const ends = node.span ? [node.span[1]] : [];
  for (const each of partsOf(node)) ends.push(endOf(each));
  return Math.max(0, ...ends);
}

/** Whether the body of an arrow is a block in its source. */
function hasBlock(/** @type {forms.Part} */ { span, params, type_params: parameters }, /** @type {SourceFile} */ { text, lines }) {
  if (!span) return false;
  const start = Math.max(span[0], ...[params, parameters].map((it) => (it && typeof it === 'object' ? endOf(/** @type {forms.Part} */ (it)) : 0)));
  return TO_BLOCK.test(text.slice(lines.offset(start), lines.offset(span[1])).replace(COMMENTS, ''));
}

/** How many return types in a part of a skeleton returns name. */
function countIn(/** @type {forms.Part} */ node, /** @type {SourceFile} */ file) {
  let count = 0;
  const { return_type: type, body } = node;
  if (isNamed(/** @type {forms.TsTypeAnn | null | undefined} */ (type))) {
    const isArrow = Boolean(body && 'Expr' in body) || Boolean(body && 'BlockStmt' in body);
    if (!isArrow || hasBlock(node, file)) count += 1;
  }
  for (const each of partsOf(node)) count += countIn(each, file);
  return count;
}

/** How many return types in the skeletons of a folder returns name. */
function namedReturnsIn(/** @type {SkeletonWorld} */ { skeletons, files }) {
  return [...skeletons].reduce((sum, [specifier, skeleton]) => {
    const file = files.get(specifier);
    return sum + (file ? countIn(skeleton.program, file) : 0);
  }, 0);
}

module.exports = { namedReturnsIn };
