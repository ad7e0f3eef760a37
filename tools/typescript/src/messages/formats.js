'use strict';
// What `check` writes: text for a terminal, lines of JSON, commands of GitHub's workflows, SARIF 2.1.0, and JUnit's XML.
const crypto = require('crypto');
const path = require('path');
const { shownName } = require('../program/answer.js');
const { CODES, FIXABLE } = require('./codes.js');
const { explanationOf } = require('./explanations.js');
const { format: framed, plain } = require('./message.js');
const { seconds } = require('../cli/progress.js');
const { visible } = require('../tree/lines.js');
const { NAME, VERSION } = require('../cli/installed.js');

/** @typedef {import('../cli/types').Context} Context */
/** @typedef {import('../cli/types').Options} Options */
/** @typedef {import('../cli/types').Result} Result */
/** @typedef {import('../cli/types').Refusal} Refusal */
/** @typedef {import('./types').Message} Message */
/** @typedef {import('./types').PlainMessage} PlainMessage */
/** @typedef {import('../cli/types').Summed} Summed */
/** @typedef {import('../program/types').World} World */

/** A number with its noun. */
function count(/** @type {number} */ number, /** @type {string} */ noun) {
  return `${number} ${noun}${number === 1 ? '' : 's'}`;
}

const sum = (/** @type {number[]} */ list) => list.reduce((all, each) => all + each, 0);

/** How many messages are left out, and why; nothing of none. */
const left = (/** @type {number[]} */ counts, /** @type {string} */ why) => (sum(counts) ? [`${sum(counts)} ${why}`] : []);

/**
 * The last line of a check: how many files were read, how many of their modules are public, what was not followed, what was reported, what was left out since it
 * is allowed or known, and the time.
 */
function summary(/** @type {Summed[]} */ results, /** @type {Context} */ context) {
  const worlds = results.flatMap((each) => each.world || []);
  const [files, modules] = [sum(worlds.map(({ files: all }) => all.size)), sum(worlds.map(({ skeletons }) => skeletons.size))];
  const previews = sum(worlds.map(({ preview }) => (preview ? preview.skeletons.size : 0)));
  const externals = worlds.flatMap(({ info }) => info.externals);
  const names = new Set(externals.map((each) => each.name));
  const parts = [
    ...(results.length > 1 ? [count(results.length, 'folder')] : []),
    count(files, 'file'),
    ...(context.kept && context.kept.round > 1 ? [`${context.kept.made} read again`] : []),
    ...(modules ? [count(modules, 'public module')] : []),
    ...(previews ? [`a preview of ${count(previews, 'module')}`] : []),
    ...(names.size ? [`${count(externals.length, 'import')} of ${count(names.size, 'package')} not followed`] : []),
    count(sum(results.map(({ messages }) => messages.length)), 'message'),
    ...left(results.map((each) => each.allowed), 'allowed'),
    ...left(results.map((each) => each.known), 'known'),
    seconds(context),
  ];
  return parts.join(', ');
}

/** The imports of a folder that were not followed, for each package: its name, and where it is imported. */
function externalsOf(/** @type {World} */ world, /** @type {string} */ cwd) {
  const byPath = new Map([...world.files.values()].map((file) => [file.path, file]));
  /** @type {Map<string, { text: string, file: string, line: number, column: number }[]>} */
  const places = new Map();
  for (const { path: at, offset, text, name } of world.info.externals) {
    const source = byPath.get(at);
    if (!source) continue;
    const { line, column } = source.lines.shown(offset);
    places.set(name, [...(places.get(name) || []), { text, file: shownName(at, cwd), line, column }]);
  }
  return [...places].sort(([a], [b]) => (a < b ? -1 : 1)).map(([external, imports]) => ({ external, imports }));
}

/** Which entry points of a folder were taken in place of those that are written. */
function takenOf(/** @type {World} */ { info }, /** @type {string} */ cwd) {
  return info.taken.map(({ written, dir, file }) => ({ entry: written, package: shownName(dir, cwd), taken: shownName(file, cwd) }));
}

/** What is reported of a folder beside its messages, as lines. */
function notesOf(/** @type {World} */ world, /** @type {Options} */ options, /** @type {string} */ cwd) {
  const imports = options.externals ? externalsOf(world, cwd) : [];
  return [
    ...imports.map(({ external, imports: all }) => `not followed: ${external} (${all.map(({ file, line }) => `${file}:${line}`).join(', ')})`),
    ...takenOf(world, cwd).map(({ entry, taken }) => `${taken} is taken for the entry point ${entry}`),
  ];
}

/** Why slow types matter, where there are some, and the way out, where there is one. */
function closing(/** @type {Summed[]} */ results) {
  const isSlow = (/** @type {Message} */ { level, code }) => level === 'Error' && CODES[code] === 'program';
  const slow = results.flatMap(({ messages, dir }) => messages.filter(isSlow).map(({ code }) => ({ code, dir })));
  if (!slow.length) return [];
  const why = [
    'These are slow types, and a package that has some has no skeletons. Without them',
    '  1. the type checkers of its users read its types, and infer nothing anew;',
    '  2. its documentation shows them;',
    '  3. its declaration files are made without a type checker.',
  ];
  const fixable = slow.find(({ code }) => FIXABLE.has(code));
  return fixable ? [...why, `\`${NAME} fix\` writes those that the compiler infers; \`fix --dry-run\` shows them first.`] : why;
}

/** How many return types single returns name, for which deno would ask, where there are some. */
function singleReturnsLine(/** @type {Summed[]} */ results) {
  const number = sum(results.map(({ singleReturns = 0 }) => singleReturns));
  const [were, them] = number === 1 ? ['was read off a single return', 'it'] : ['were read off single returns', 'them'];
  return number ? [`${count(number, 'return type')} ${were}; deno 0.111.1 would ask for ${them}`] : [];
}

const OF_SKELETON = / \(skeleton\)$/;

/** A message for other tools: of one in a skeleton the source, without a place, since that of the skeleton is another. */
function located(/** @type {Message} */ message) {
  const made = plain(message);
  if (!OF_SKELETON.test(made.file || '')) return made;
  const { level, code, message: said, file, hint, info, docs } = made;
  return { level, code, message: said, file: (file || '').replace(OF_SKELETON, ''), hint, info, docs };
}

/** @typedef {{ result(result: Result, options: Options, context: Context): void, end(results: Result[], options: Options, context: Context): void }} Format */

// ---- text

/** @type {Format} */
const text = {
  result({ messages, world, thrown }, options, context) {
    const [stream, paint] = thrown ? [context.err, context.paintErrors] : [context.out, context.paint];
    for (const message of messages) stream.write(`${framed(message, paint).join('\n')}\n`);
    if (thrown) context.err.write(`${NAME}: ${thrown.message}\n`);
    else if (world && !options.quiet) for (const line of notesOf(world, options, context.cwd)) context.out.write(`${line}\n`);
  },

  end(results, options, context) {
    if (options.quiet || results.every(({ thrown }) => thrown)) return;
    const why = options.watch ? [] : closing(results);
    for (const line of why) context.out.write(`${line}\n`);
    const { mayTellMore } = require('../skeleton/effects.js');
    const more = !options.verify && results.some(({ world }) => world && mayTellMore(world)) ? '; --verify may tell more' : '';
    context.out.write(`${why.length ? '\n' : ''}${summary(results, context)}${more}\n`);
    for (const line of singleReturnsLine(results)) context.out.write(`${line}\n`);
  },
};

// ---- JSON, an object a line

/** @type {Format} */
const json = {
  result({ messages, world, thrown }, options, context) {
    const notes = world ? [...(options.externals ? externalsOf(world, context.cwd) : []), ...takenOf(world, context.cwd)] : [];
    for (const each of [...messages.map(plain), ...notes]) context.out.write(`${JSON.stringify(each)}\n`);
    if (thrown) context.err.write(`${NAME}: ${thrown.message}\n`);
  },

  end() {},
};

// ---- GitHub: the commands of a workflow, `::error file=..,line=..::message`

/** A text as the value of a command. */
function escapedValue(/** @type {string} */ value) {
  return String(value).replace(/%/g, '%25').replace(/\r/g, '%0D').replace(/\n/g, '%0A');
}

/** A text as a property of a command. */
function escapedProperty(/** @type {string} */ value) {
  return escapedValue(value).replace(/:/g, '%3A').replace(/,/g, '%2C');
}

/**
 * A command with those of its properties that are known. A column counts where it is one of a single line.
 *
 * @param {string} level
 * @param {Partial<import('./types').PlainMessage>} message
 * @param {string} value
 */
function githubLine(level, { file, line, endLine, column, endColumn, code }, value) {
  const columns = line === endLine ? { col: column, endColumn } : {};
  const known = Object.entries({ file, line, endLine, ...columns, title: code }).filter(([, each]) => each !== undefined && each !== null);
  return `::${level} ${known.map(([name, each]) => `${name}=${escapedProperty(String(each))}`).join(',')}::${escapedValue(value)}`;
}

/** @type {Format} */
const github = {
  result({ messages, world, thrown }, options, context) {
    for (const each of messages.map(located)) {
      const lines = [each.message, ...(each.hint ? [`hint: ${each.hint}`] : []), ...(each.info || []), ...(each.docs ? [each.docs] : [])];
      context.out.write(`${githubLine(each.level, each, lines.map(visible).join('\n'))}\n`);
    }
    for (const line of world ? notesOf(world, options, context.cwd) : []) context.out.write(`${githubLine('notice', {}, line)}\n`);
    if (thrown) context.out.write(`${githubLine('error', {}, thrown.message)}\n`);
  },

  end(results, options, context) {
    context.out.write(`${summary(results, context)}\n`);
  },
};

// ---- SARIF 2.1.0

const SARIF_SCHEMA = 'https://json.schemastore.org/sarif-2.1.0.json';

/** The name of a file as a URI: a relative one, or that of the file. */
function uriOf(/** @type {string} */ name) {
  const written = name.split(path.sep).map(encodeURIComponent).join('/');
  return path.isAbsolute(name) ? `file://${written}` : written;
}

function sarifLocation(/** @type {PlainMessage} */ { file, line, column, endLine, endColumn }) {
  const region = line ? { region: { startLine: line, startColumn: column, endLine, endColumn } } : {};
  return { physicalLocation: { artifactLocation: { uri: uriOf(file || '') }, ...region } };
}

/** What a message is known by in later runs, wherever it stands in its file: as in a baseline, and by how many like it stand before it. */
function fingerprintOf(/** @type {PlainMessage} */ { code, file, message }, /** @type {Map<string, number>} */ seen) {
  const key = JSON.stringify([code, file, message]);
  seen.set(key, (seen.get(key) || 0) + 1);
  return { 'nagdrez/v1': crypto.createHash('sha256').update(`${key} ${seen.get(key)}`).digest('hex').slice(0, 32) };
}

function sarifResult(/** @type {PlainMessage} */ message, /** @type {{ id: string }[]} */ rules, /** @type {Map<string, number>} */ seen) {
  const { code, level, hint, info, file } = message;
  const lines = [message.message, ...(hint ? [`hint: ${hint}`] : []), ...(info || [])].map(visible);
  const place = file ? { locations: [sarifLocation(message)] } : {};
  const ruleIndex = rules.findIndex(({ id }) => id === code);
  return { ruleId: code, ruleIndex, level, message: { text: lines.join('\n') }, ...place, partialFingerprints: fingerprintOf(message, seen) };
}

/** The rules that messages have, each once, with its page where it has one, and the text of `explain` as its help. */
function sarifRules(/** @type {PlainMessage[]} */ messages) {
  const first = new Map();
  for (const each of messages) if (!first.has(each.code)) first.set(each.code, each);
  return [...first].map(([id, { docs }]) => {
    const text = explanationOf(id);
    return { id, shortDescription: { text: id.replace(/-/g, ' ') }, ...(docs ? { helpUri: docs } : {}), ...(text ? { help: { text, markdown: text } } : {}) };
  });
}

/** @type {Format} */
const sarif = {
  result() {},

  end(results, options, context) {
    const messages = results.flatMap((each) => each.messages).map(located);
    const rules = sarifRules(messages);
    const seen = new Map();
    const notifications = results.flatMap(({ thrown }) => (thrown ? { level: 'error', message: { text: thrown.message } } : []));
    const run = {
      tool: { driver: { name: NAME, version: VERSION, informationUri: 'https://nagdrez.example', rules } },
      invocations: [{ executionSuccessful: !notifications.length, toolExecutionNotifications: notifications }],
      columnKind: 'unicodeCodePoints',
      results: messages.map((each) => sarifResult(each, rules, seen)),
    };
    context.out.write(`${JSON.stringify({ $schema: SARIF_SCHEMA, version: '2.1.0', runs: [run] }, null, 2)}\n`);
  },
};

// ---- JUnit

/** @type {Record<string, string>} */
const ENTITIES = { '&': '&amp;', '<': '&lt;', '>': '&gt;', '"': '&quot;', '\n': '&#10;', '\t': '&#9;' };

/** A text as XML has it, in an element or, with its line breaks and tabs written out, in an attribute. What XML has no form for is shown by pictures. */
function xml(/** @type {unknown} */ value, special = /[&<>]/g) {
  const whole = String(value).split('\n').map(visible).join('\n').replace(/[\ufffe\uffff]/g, '\ufffd');
  return Buffer.from(whole).toString().replace(special, (each) => ENTITIES[each]);
}

function attributes(/** @type {Record<string, unknown>} */ all) {
  const known = Object.entries(all).filter(([, it]) => it !== undefined && it !== null);
  return known.map(([name, it]) => ` ${name}="${xml(it, /[&<>"\n\t]/g)}"`).join('');
}

/** A message as a test case: an error is one that failed, a warning one that passed with something to tell. */
function junitMessage(/** @type {Message} */ message, /** @type {string} */ classname) {
  const { file, line, code, level } = plain(message);
  const whole = framed(message, (style, each) => each).join('\n').trimEnd();
  const failure = `<failure${attributes({ type: code, message: message.message })}>${xml(whole)}</failure>`;
  const inside = level === 'error' ? failure : `<system-out>${xml(whole)}</system-out>`;
  const name = `${code}${line ? ` at ${file}:${line}` : ''}`;
  return `    <testcase${attributes({ classname, name, file, line })}>${inside}</testcase>`;
}

/** A folder as a suite of tests: its messages, and each file of which nothing is reported. */
function junitSuite(/** @type {Result} */ result, /** @type {Context} */ context) {
  const name = shownName(result.dir, context.cwd);
  const told = new Set(result.messages.map(({ file }) => file));
  const files = result.world ? [...result.world.files.values()].map((file) => shownName(file.path, context.cwd)) : [];
  const passed = files.filter((file) => !told.has(file)).sort();
  const error = (/** @type {Refusal} */ { message }) => `    <testcase${attributes({ classname: name, name: 'check' })}><error${attributes({ message })}/></testcase>`;
  const errors = result.thrown ? [error(result.thrown)] : [];
  const cases = [
    ...passed.map((file) => `    <testcase${attributes({ classname: name, name: file, file })}/>`),
    ...result.messages.map((each) => junitMessage(each, name)),
    ...errors,
  ];
  const failures = result.messages.filter(({ level }) => level === 'Error').length;
  const counts = { tests: cases.length, failures, errors: errors.length };
  return { counts, lines: [`  <testsuite${attributes({ name, ...counts })}>`, ...cases, '  </testsuite>'] };
}

/** @type {Format} */
const junit = {
  result() {},

  end(results, options, context) {
    const suites = results.map((each) => junitSuite(each, context));
    const counts = {
      tests: sum(suites.map((each) => each.counts.tests)), failures: sum(suites.map((each) => each.counts.failures)), errors: sum(suites.map((each) => each.counts.errors)),
    };
    const whole = ['<?xml version="1.0" encoding="UTF-8"?>', `<testsuites${attributes(counts)}>`, ...suites.flatMap(({ lines }) => lines), '</testsuites>'];
    context.out.write(`${whole.join('\n')}\n`);
  },
};

// ---- a badge, as shields.io reads it from an endpoint

const badge = {
  result() {},

  end(/** @type {Result[]} */ results, /** @type {Options} */ options, /** @type {Context} */ context) {
    const number = sum(results.map(({ messages }) => messages.filter(({ level }) => level === 'Error').length));
    const isUnread = results.some(({ thrown }) => thrown);
    const [message, color] = isUnread ? ['not read', 'lightgrey'] : number ? [String(number), 'orange'] : ['none', 'brightgreen'];
    context.out.write(`${JSON.stringify({ schemaVersion: 1, label: 'slow types', message, color })}\n`);
  },
};

/** The formats by their names. Each has `result`, which is called for each folder as it is checked, and `end`, which is called with all. */
/** @type {Record<string, Format>} */
const FORMATS = { text, json, github, sarif, junit, badge };

module.exports = { FORMATS, count, summary };
