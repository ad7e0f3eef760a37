'use strict';
// What differs between two versions of a package for its users, and which part of the version number has to change.
const { moduleName } = require('./module-name.js');
const { nameChanges } = require('./names.js');
const { highest, versionText } = require('./release.js');

/** @typedef {import('../program/types').World} World */

/** @typedef {import('../api/check.js').Context} Context */
/** @typedef {import('../cli/types').Options} Options */
/** @typedef {import('./types').Version} Version */
/** @typedef {import('./types').Compared} Compared */
/** @typedef {import('./types').Change} Change */
/** @typedef {import('./types').Advised} Advised */
/** @typedef {import('../skeleton/types').PublicName} PublicName */

/** The public names of a folder that was read, with those of which something is wrong; null where no name is known. `preview` has to have been asked for. */
function versionOf(/** @type {World} */ world) {
  const { withPartial } = require('../program/preview.js');
  const { publicNames } = require('../skeleton/public-names.js');
  if (world.broken.length || (world.messages.some(({ level }) => level !== 'Warning') && !world.preview)) return null;
  const whole = withPartial(world);
  return { world: whole, names: publicNames(whole), isPreview: Boolean(world.preview), unknown: world.preview ? world.preview.unknown : new Set() };
}

/** @type {Advised} */
const GONE = { advice: 'major', reason: 'the name is gone' };
/** @type {Advised} */
const NEW = { advice: 'minor', reason: 'the name is new' };
/** @type {Record<string, string>} */
const WORDS = { minor: 'what used it can use it as before', patch: 'the compiler sees no other type' };

/** A place in a closure, `specifier\nname`, as `{specifier, name}`; null of what lies in another package. */
function placeOf(/** @type {string} */ key) {
  const [specifier, name] = key.split('\n');
  return specifier ? { specifier, name } : null;
}

/** The declarations that a changed name leads to and that differ: those at one place, and those of one name at different places. The name's own comes first. */
function declarationPairs(/** @type {PublicName} */ old, /** @type {PublicName} */ now) {
  const own = [old.target, now.target].map((it) => it.join('\n'));
  const differing = (/** @type {PublicName} */ names, /** @type {PublicName} */ others) => [...names.closure.keys()].filter((key) => !others.closure.has(key) && key !== names.target.join('\n'));
  const both = [...old.closure.keys()].filter((key) => now.closure.has(key) && now.closure.get(key) !== old.closure.get(key) && key !== own[0]).map((key) => [key, key]);
  const gone = new Map(differing(old, now).map((key) => [key.split('\n')[1], key]));
  const moved = differing(now, old).flatMap((key) => {
    const before = gone.get(key.split('\n')[1]);
    return before === undefined ? [] : [[before, key]];
  });
  return [own, ...both, ...moved].filter(([one, other]) => old.closure.get(one) !== now.closure.get(other));
}

/** Whether two names with the same texts lead to different places, however imports write the modules of other packages. */
function leadsElsewhere(/** @type {PublicName} */ old, /** @type {PublicName} */ now) {
  const shown = (/** @type {string} */ key) => (key.startsWith('\n') ? key.replace(/ of (.*)$/s, (_, text) => ` of ${moduleName(text)}`) : key);
  const [before, after] = [old, now].map(({ closure }) => [...new Set([...closure.keys()].map(shown))].sort().join('\n\n'));
  return before !== after;
}

/**
 * What a re-export of a whole module asks for, whose text lists its names.
 *
 * @returns {Advised}
 */
function ofNames(before = '', after = '') {
  const [old, now] = [before, after].map((text) => new Set(text.split(' ').filter(Boolean)));
  const [gone] = [...old].filter((name) => !now.has(name));
  return gone === undefined ? { advice: 'minor', reason: null } : { advice: 'major', reason: `${gone} is gone` };
}

/** A declaration that both versions have under some names, as the compiler is asked of it; nothing of one that lies in another package, or of a whole module. */
function askedOf(/** @type {string[]} */ pair) {
  const [old, now] = pair.map(placeOf);
  return old && now && old.name && now.name ? { key: pair.join('\n'), old, now } : null;
}

/**
 * The changes, each with the part of the version number that it raises and the reason.
 *
 * @returns {Promise<Change[]>}
 */
async function advised(/** @type {Version} */ before, /** @type {Version} */ after, /** @type {Change[]} */ changes, /** @type {Context} */ context) {
  const { compared } = require('../compiler/thread.js');
  const both = changes.flatMap((it) => {
    const [old, now] = [before.names.get(it.name), after.names.get(it.name)];
    return old && now && it.change === 'changed' ? { it, old, now, pairs: declarationPairs(old, now) } : [];
  });
  const asked = new Map(both.flatMap(({ pairs }) => pairs.flatMap((pair) => askedOf(pair) || [])).map((it) => [it.key, it]));
  if (asked.size) context.progress.begin("TypeScript's compiler compares what is declared otherwise");
  /** @type {Map<string, Advised>} */
  const found = asked.size ? await compared(before.world, after.world, [...asked.values()], context) : new Map();
  context.progress.end();
  /** @type {Advised} */
  const another = { advice: 'major', reason: 'it is another declaration' };
  const ofPair = (/** @type {PublicName} */ old, /** @type {PublicName} */ now, /** @type {string[]} */ pair) => {
    const areModules = pair.every((key) => key.split('\n')[0] && key.endsWith('\n'));
    if (askedOf(pair)) return found.get(pair.join('\n')) || another;
    return areModules ? ofNames(old.closure.get(pair[0]), now.closure.get(pair[1])) : another;
  };
  /** @type {(changed: (typeof both)[0]) => Advised} */
  const adviceFor = ({ old, now, pairs }) => {
    if (now.isTypeOnly && !old.isTypeOnly) return { advice: 'major', reason: 'it is exported as a type only' };
    const more = old.isTypeOnly && !now.isTypeOnly ? [{ advice: /** @type {const} */ ('minor'), reason: null }] : [];
    const all = [...pairs.map((pair) => ofPair(old, now, pair)), ...more];
    const advice = highest(all.map((each) => each.advice));
    // Where its own text and those of the same names are the same, an import has another meaning, or names the same module otherwise.
    const otherwise = leadsElsewhere(old, now) ? { ...another, reason: 'it leads to another declaration' } : { ...another, advice: /** @type {const} */ ('patch'), reason: null };
    return all.find((each) => each.advice === advice) || otherwise;
  };
  const ofChanged = new Map(both.map((it) => [it.it, adviceFor(it)]));
  return changes.map((it) => {
    const { advice, reason } = ofChanged.get(it) || (it.change === 'removed' ? GONE : NEW);
    return { ...it, advice, reason: reason || WORDS[advice] };
  });
}

/** Why there is no advice: which names are left out, since something is wrong with them. */
function previewReason(/** @type {Set<string>} */ unknown) {
  const names = [...unknown].map((it) => it.split('\n')).map(([specifier, name]) => `${name} (${specifier.replace(/^file:\/\/\//, '')})`).sort();
  return `a package has messages, and no advice comes${names.length ? `; not compared: ${names.join(', ')}, and what leads to them` : ''}`;
}

/** @type {Record<string, string>} */
const REASONS = {
  major: 'users of a public name may have to change their code',
  minor: 'what users have goes on, and there is more',
  patch: 'users see the types that they saw',
};

/**
 * The advice on some changes, and what else may differ (`hidden`).
 *
 * @returns {{ advice: Compared['advice'], reason: string }}
 */
function adviceOn(/** @type {Change[]} */ changes, /** @type {string[]} */ hidden) {
  const advice = highest(changes.map((it) => it.advice));
  if (hidden.length && advice !== 'major') return { advice: 'unknown', reason: `${advice} by the public declarations, and more may differ` };
  return { advice, reason: changes.length ? REASONS[advice] : 'no public declaration differs' };
}

/** What was not looked at, beside `hidden`. */
function limits(/** @type {Version} */ { world }) {
  const { packagesMentioned } = require('./not-compared.js');
  const packages = packagesMentioned(world);
  return ['what the code does', ...(packages.length ? [`the types of ${packages.join(', ')}`] : [])];
}

/**
 * For each package of both versions what its new version is beside the least one.
 *
 * @returns {string[]}
 */
function versionTexts(/** @type {Version} */ before, /** @type {Version} */ after, /** @type {Change[]} */ changes) {
  const packages = after.world.info.packages;
  return packages.map(({ name, version, isVersioned }) => {
    const old = before.world.info.packages.find((it) => it.name === name);
    const own = changes.filter(({ owner }) => owner === name);
    const text = old && old.isVersioned && isVersioned ? versionText(old.version, version, highest(own.map((it) => it.advice))) : null;
    return text && (packages.length > 1 ? `${name}: ${text}` : text);
  }).flatMap((it) => it || []);
}

/**
 * All that is said of two versions.
 *
 * @returns {Promise<Compared>}
 */
async function comparison(/** @type {Version} */ before, /** @type {Version} */ after, /** @type {Context} */ context) {
  const { hiddenDifferences } = require('./not-compared.js');
  const unknown = new Set([...before.unknown, ...after.unknown]);
  const changes = nameChanges(before.names, after.names, unknown);
  if (before.isPreview || after.isPreview) return { changes, advice: 'preview', reason: previewReason(unknown), hidden: [], limits: [], versions: [] };
  const all = await advised(before, after, changes, context);
  const hidden = hiddenDifferences(before.world, after.world);
  const found = adviceOn(all, hidden);
  const versions = found.advice === 'unknown' ? [] : versionTexts(before, after, all);
  return { changes: all, ...found, hidden, limits: limits(after), versions };
}

module.exports = { comparison, versionOf };
