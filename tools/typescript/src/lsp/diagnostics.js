'use strict';
// Messages of a package as an editor shows them.
const path = require('path');
const { pathToFileURL } = require('url');
const { rangeOf } = require('./documents.js');

/** @typedef {import('../program/types').World} World */
/** @typedef {import('../messages/types').Message} Message */
/** @typedef {import('../cli/types').Result} Result */
/** @typedef {import('./types').Diagnostic} Diagnostic */
/** @typedef {{ from: string, text: string, to: string }} Lead */

/** @type {Record<'Error' | 'Warning', 1 | 2>} */
const SEVERITIES = { Error: 1, Warning: 2 };
const START = { start: { line: 0, character: 0 }, end: { line: 0, character: 0 } };

/** How a module is reached: for each specifier but those of entry points, the module that leads there first and the text by which it does. */
function leadsOf(/** @type {World} */ { request, info }) {
  /** @type {Map<string, Lead>} */
  const leads = new Map();
  /** @type {Map<string, Lead[]>} */
  const targets = new Map();
  for (const [from, text, to] of request.graph.resolutions) targets.set(from, [...(targets.get(from) || []), { from, text, to }]);
  const reached = new Set(info.entryPoints);
  for (const specifier of reached) {
    for (const lead of targets.get(specifier) || []) {
      if (!reached.has(lead.to)) leads.set(lead.to, lead);
      reached.add(lead.to);
    }
  }
  return leads;
}

/**
 * Where another module leads to the one of a message: a module behind an entry point is public by what leads there.
 *
 * @returns {NonNullable<Diagnostic['relatedInformation']>}
 */
function relatedOf(/** @type {World} */ world, /** @type {Map<string, Lead>} */ leads, /** @type {string} */ specifier) {
  const lead = leads.get(specifier);
  if (!lead) return [];
  const file = world.files.get(lead.from);
  const module = world.info.modules.find((it) => it.specifier === lead.from);
  const source = module && (module.leads || module.tree.sources || []).find(({ text }) => text === lead.text);
  if (!source || !file) return [];
  const range = rangeOf(file.lines, source.offset, source.offset + source.text.length + 2);
  return [{ location: { uri: pathToFileURL(file.path).href, range }, message: `the public API leads to this module by '${lead.text}'` }];
}

/**
 * A message as a diagnostic, with related places where the client shows them.
 *
 * @returns {Diagnostic}
 */
function diagnosticOf(/** @type {Message} */ message, /** @type {NonNullable<Diagnostic['relatedInformation']>} */ related) {
  const { level, code, docs, hint, info, lines, start = 0, end = start } = message;
  const text = [message.message, ...(hint ? [`hint: ${hint}`] : []), ...(info || [])].join('\n');
  return {
    range: lines ? rangeOf(lines, start, end) : START, severity: SEVERITIES[level], code, source: 'nagdrez', message: text,
    ...(docs ? { codeDescription: { href: docs } } : {}),
    ...(related.length ? { relatedInformation: related } : {}),
  };
}

/** The diagnostics of a folder by the URIs of their files. A message without a file is shown at the folder's configuration, as `none` names it. */
function diagnosticsOf(/** @type {Pick<Result, 'dir' | 'world' | 'messages'>} */ { dir, world, messages }, /** @type {string} */ none) {
  /** @type {Map<string, Diagnostic[]>} */
  const found = new Map();
  const leads = world ? leadsOf(world) : new Map();
  for (const message of messages) {
    const file = message.file ? path.resolve(dir, message.file) : none;
    const uri = pathToFileURL(file).href;
    const related = world && message.specifier ? relatedOf(world, leads, message.specifier) : [];
    found.set(uri, [...(found.get(uri) || []), diagnosticOf(message, related)]);
  }
  return found;
}

module.exports = { diagnosticsOf };
