'use strict';
// Which public modules of two folders have other skeletons.

/** @typedef {import('../skeleton/types').PublicName} PublicName */
/** @typedef {import('./types').DiffLine} DiffLine */
/** @typedef {import('./types').Change} Change */

/** The lines that two texts share in order, by the longest common subsequence: `[kind, line]` with kind ' ', '-' or '+'. */
function lineDifference(/** @type {string} */ before, /** @type {string} */ after) {
  return differenceOf(before.split('\n'), after.split('\n'));
}

/** @type {(kind: string, texts: string[]) => DiffLine[]} */
const lines = (kind, texts) => texts.map((it) => [kind, it]);

/**
 * As `lineDifference`, of lists of lines.
 *
 * @returns {DiffLine[]}
 */
function differenceOf(/** @type {string[]} */ a, /** @type {string[]} */ b) {
  let head = 0;
  while (head < a.length && head < b.length && a[head] === b[head]) head++;
  let tail = 0;
  while (tail < a.length - head && tail < b.length - head && a[a.length - 1 - tail] === b[b.length - 1 - tail]) tail++;
  const middle = common(a.slice(head, a.length - tail), b.slice(head, b.length - tail));
  return [...lines(' ', a.slice(0, head)), ...middle, ...lines(' ', a.slice(a.length - tail))];
}

// The most cells of the table of common lines; past that all lines are shown as replaced.
const MOST_CELLS = 4_000_000;

/** @returns {DiffLine[]} */
function common(/** @type {string[]} */ a, /** @type {string[]} */ b) {
  if (a.length * b.length > MOST_CELLS) return [...lines('-', a), ...lines('+', b)];
  const width = b.length + 1;
  const lengths = new Uint32Array((a.length + 1) * width);
  for (let i = a.length - 1; i >= 0; i--) {
    for (let j = b.length - 1; j >= 0; j--) {
      lengths[i * width + j] = a[i] === b[j] ? lengths[(i + 1) * width + j + 1] + 1 : Math.max(lengths[(i + 1) * width + j], lengths[i * width + j + 1]);
    }
  }
  /** @type {DiffLine[]} */
  const out = [];
  let i = 0;
  let j = 0;
  while (i < a.length || j < b.length) {
    if (i < a.length && j < b.length && a[i] === b[j]) out.push([' ', a[i++]]), j++;
    else if (j < b.length && (i === a.length || lengths[i * width + j + 1] > lengths[(i + 1) * width + j])) out.push(['+', b[j++]]);
    else out.push(['-', a[i++]]);
  }
  return out;
}

/** The changed lines with two lines around each; `null` stands for lines that are left out. */
function hunks(/** @type {DiffLine[]} */ lines) {
  /** @type {Set<number>} */
  const near = new Set();
  lines.forEach(([kind], at) => {
    if (kind !== ' ') for (let each = at - 2; each <= at + 2; each++) near.add(each);
  });
  /** @type {(DiffLine | null)[]} */
  const out = [];
  lines.forEach((line, at) => {
    if (near.has(at)) out.push(line);
    else if (out.length && out[out.length - 1] !== null) out.push(null);
  });
  if (out[out.length - 1] === null) out.pop();
  return out;
}

/** Where the changed parts of a list of lines begin and end, with three lines around each: parts that are near are one. */
function parts(/** @type {DiffLine[]} */ lines) {
  /** @type {{ start: number, end: number }[]} */
  const found = [];
  lines.forEach(([kind], at) => {
    if (kind === ' ') return;
    const last = found[found.length - 1];
    if (last && at - 3 <= last.end) last.end = Math.min(lines.length, at + 4);
    else found.push({ start: Math.max(0, at - 3), end: Math.min(lines.length, at + 4) });
  });
  return found;
}

/** The lines of a text, of which the last one says where no line break stands behind it. */
function endedLines(/** @type {string} */ text) {
  const lines = text.split('\n');
  const last = lines.pop();
  return last === '' ? lines : [...lines, `${last}\n\\ No newline at end of file`];
}

/** The lines of a unified diff of a file, as `git apply` takes it. */
function unified(/** @type {string} */ name, /** @type {string} */ before, /** @type {string} */ after) {
  const lines = differenceOf(endedLines(before), endedLines(after));
  const count = (/** @type {DiffLine[]} */ part, /** @type {string} */ kind) => part.filter(([each]) => each !== kind).length;
  const out = [`--- a/${name}`, `+++ b/${name}`];
  for (const { start, end } of parts(lines)) {
    const [above, inside] = [lines.slice(0, start), lines.slice(start, end)];
    const [old, now] = ['+', '-'].map((kind) => `${count(above, kind) + 1},${count(inside, kind)}`);
    out.push(`@@ -${old} +${now} @@`, ...inside.map(([kind, line]) => kind + line));
  }
  return out;
}

const textsIn = (/** @type {Map<string, string>} */ closure) => [...closure.values()].sort().join('\n');

/** The declarations of a name that differ: where each stands, and its lines. Of those that are shown already the lines are left out. */
function changedParts(/** @type {PublicName} */ old, /** @type {PublicName} */ now, /** @type {Set<string>} */ told) {
  const keys = [...new Set([...old.closure.keys(), ...now.closure.keys()])].filter((key) => old.closure.get(key) !== now.closure.get(key));
  return keys.map((key) => {
    const [specifier, name] = key.split('\n');
    const isOwn = key === now.target.join('\n');
    /** @type {import('./types').ChangedPart} */
    const part = { name: isOwn ? null : name, module: specifier.replace(/^file:\/\/\//, ''), lines: [] };
    if (told.has(key)) return part;
    told.add(key);
    const before = (old.closure.get(key) || '').trimEnd();
    return { ...part, lines: hunks(lineDifference(before, (now.closure.get(key) || '').trimEnd())).filter((line) => line === null || line[1] !== '') };
  });
}

/** Some public names without those that are or lead to a declaration of which something is wrong: `specifier\nname` in `unknown`. */
function withoutUnknown(/** @type {Map<string, PublicName>} */ names, /** @type {Set<string>} */ unknown) {
  return unknown.size ? new Map([...names].filter(([, { closure }]) => ![...closure.keys()].some((it) => unknown.has(it)))) : names;
}

/** @typedef {Map<string, PublicName>} Names */

/**
 * The public names that differ, each `{name, owner, module, change, parts}`: names that are gone first, then those that changed, then those that are new. Names that lead to a
 * declaration of which something is wrong in either are left out of both.
 *
 * @param {Names} old
 * @param {Names} now
 * @param {Set<string>} unknown
 */
function nameChanges(old, now, unknown = new Set()) {
  const [known, others] = [old, now].map((it) => withoutUnknown(it, unknown));
  const both = (/** @type {Names} */ names, /** @type {Names} */ others) => new Map([...names].filter(([name]) => known.has(name) || !old.has(name)).filter(([name]) => others.has(name) || !now.has(name)));
  return changesOf(both(known, others), both(others, others));
}

/** @returns {Change[]} */
function changesOf(/** @type {Names} */ before, /** @type {Names} */ after) {
  /** @type {Set<string>} */
  const told = new Set();
  /** @type {(some: Names, others: Names, change: Change['change']) => Change[]} */
  const only = (some, others, change) => [...some].filter(([name]) => !others.has(name)).map(([name, { owner, module }]) => ({ name, owner, module, change, parts: [] }));
  const differing = [...after].flatMap(([name, now]) => {
    const old = before.get(name);
    return old && (textsIn(old.closure) !== textsIn(now.closure) || old.isTypeOnly !== now.isTypeOnly) ? { name, old, now } : [];
  });
  const isOwn = (/** @type {(typeof differing)[0]} */ { old, now: { target, closure } }) => old.closure.get(target.join('\n')) !== closure.get(target.join('\n'));
  const both = [...differing.filter(isOwn), ...differing.filter((it) => !isOwn(it))];
  /** @type {Change[]} */
  const changed = both.map(({ name, old, now }) => ({ name, owner: now.owner, module: now.module, change: 'changed', parts: changedParts(old, now, told) }));
  return [...only(before, after, 'removed'), ...changed, ...only(after, before, 'added')];
}

module.exports = { differenceOf, nameChanges, unified };
