'use strict';
// Reads back what `check --format` writes: the commands of GitHub's workflows, SARIF 2.1.0 and JUnit's XML. What is not as their rules say throws.

/**
 * @param {unknown} value
 * @param {string} what
 * @returns {asserts value}
 */
function ensure(value, what) {
  if (!value) throw new Error(what);
}

// ---- GitHub: `::name property=value,property=value::value`

const PROPERTIES = ['title', 'file', 'line', 'endLine', 'col', 'endColumn'];

const unescapedValue = (/** @type {string} */ text) => text.replace(/%0A/g, '\n').replace(/%0D/g, '\r').replace(/%25/g, '%');
const unescapedProperty = (/** @type {string} */ text) => unescapedValue(text.replace(/%2C/g, ',').replace(/%3A/g, ':'));

/** A line as a runner takes it: `{name, properties, value}`. */
function githubCommand(/** @type {string} */ line) {
  const found = /^::([a-z]+)(?: ([^:]*))?::(.*)$/.exec(line);
  ensure(found, `${line} is no command`);
  const [, name, list = '', value] = found;
  ensure(['error', 'warning', 'notice'].includes(name), `${name} is no command for a message`);
  const properties = Object.fromEntries(list.split(',').filter(Boolean).map((each) => {
    const at = each.indexOf('=');
    ensure(PROPERTIES.includes(each.slice(0, at)), `${each} is no property`);
    return [each.slice(0, at), unescapedProperty(each.slice(at + 1))];
  }));
  ensure(properties.col === undefined || properties.line === properties.endLine, 'a column stands where the lines are two');
  return { name, properties, value: unescapedValue(value) };
}

// ---- SARIF: what the schema of version 2.1.0 says of the objects that are written

/** @typedef {(value: any) => void} Rule refuses what is not as it says; a value of JSON may be of any type */

/** @type {Rule} */
const text = (value) => ensure(typeof value === 'string' && value !== '', `${JSON.stringify(value)} is no text`);
/** @type {Rule} */
const place = (value) => ensure(Number.isInteger(value) && value >= 1, `${value} is no line and no column`);
/** @returns {Rule} */
const oneOf = (/** @type {string[]} */ ...words) => (value) => ensure(words.includes(value), `${value} is none of ${words}`);
/** @type {Rule} */
const isBoolean = (value) => ensure(typeof value === 'boolean', `${value} is neither true nor false`);
/** @returns {Rule} */
const list = (/** @type {Rule} */ rule) => (value) => {
  ensure(Array.isArray(value), 'this is no list');
  value.forEach(rule);
};
/** @returns {Rule} */
const object = (/** @type {Record<string, Rule>} */ required, /** @type {Record<string, Rule>} */ optional = {}) => (value) => {
  ensure(value !== null && typeof value === 'object' && !Array.isArray(value), 'this is no object');
  for (const name of Object.keys(required)) ensure(name in value, `${name} is not there`);
  for (const [name, each] of Object.entries(value)) {
    const rule = required[name] || optional[name];
    ensure(rule, `${name} is no member here`);
    rule(each);
  }
};

/** A reference of RFC 3986: no character that has to be written otherwise. */
function uri(/** @type {string} */ value) {
  ensure(/^(?:file:\/\/\/)?(?:[A-Za-z0-9._~!$&'()*+,;=@/-]|%[0-9A-F]{2})+$/.test(value), `${value} is no URI`);
  ensure(/^(?:file:|[^:]*$)/.test(value), `${value} begins as a scheme`);
}

/** @type {Rule} */
const page = (value) => ensure(new URL(value).protocol === 'https:', `${value} is no page`);
const message = object({ text });
/** @type {Rule} */
const region = (value) => {
  object({ startLine: place, startColumn: place, endLine: place, endColumn: place })(value);
  const isForward = value.startLine < value.endLine || (value.startLine === value.endLine && value.startColumn <= value.endColumn);
  ensure(isForward, 'the region ends before it begins');
};
const level = oneOf('none', 'note', 'warning', 'error');
const location = object({ physicalLocation: object({ artifactLocation: object({ uri }) }, { region }) });
const partialFingerprints = object({ 'nagdrez/v1': text });
const result = object({ ruleId: text, ruleIndex: (value) => ensure(Number.isInteger(value), `${value} is no number`), level, message, partialFingerprints }, { locations: list(location) });
const help = object({ text, markdown: text });
const rule = object({ id: text, shortDescription: message }, { helpUri: page, help });
const driver = object({ name: text, version: text, informationUri: page, rules: list(rule) });
const invocation = object({ executionSuccessful: isBoolean, toolExecutionNotifications: list(object({ level, message })) });
const run = object({
  tool: object({ driver }), invocations: list(invocation), columnKind: oneOf('utf16CodeUnits', 'unicodeCodePoints'), results: list(result),
});
const log = object({ $schema: page, version: oneOf('2.1.0'), runs: list(run) });

/** @typedef {{ physicalLocation: { artifactLocation: { uri: string }, region?: { startLine: number, startColumn: number } } }} Location */
/** @typedef {{ ruleId: string, ruleIndex: number, locations: Location[], partialFingerprints: Record<string, string> }} Result */
/** @typedef {{ tool: { driver: { rules: { id: string }[] } }, results: Result[], invocations: { executionSuccessful: boolean, toolExecutionNotifications: unknown[] }[] }} Run */

/**
 * The one run of a SARIF log.
 *
 * @returns {Run}
 */
function sarifRun(/** @type {string} */ whole) {
  const made = JSON.parse(whole);
  log(made);
  /** @type {Run} */
  const one = made.runs[0];
  const { rules } = one.tool.driver;
  ensure(new Set(rules.map(({ id }) => id)).size === rules.length, 'a rule stands twice');
  const prints = one.results.map((each) => each.partialFingerprints['nagdrez/v1']);
  ensure(new Set(prints).size === prints.length, 'a fingerprint stands twice');
  for (const { ruleId, ruleIndex } of one.results) ensure(rules[ruleIndex].id === ruleId, `${ruleId} is not rule ${ruleIndex}`);
  return one;
}

// ---- JUnit

const TOKEN = /<\?xml [^?]*\?>|<(\/?)([a-z-]+)((?: [a-z]+="[^"<]*")*)(\/?)>|([^<]+)/gy;
// eslint-disable-next-line no-control-regex
const NO_XML = /[\u0000-\u0008\u000b\u000c\u000e-\u001f\ufffe\uffff]/;

function unescapedXml(/** @type {string} */ value) {
  ensure(!/&(?!(?:amp|lt|gt|quot|#\d+);)/.test(value), `${value} has an entity that is none`);
  /** @type {Record<string, string>} */
  const named = { amp: '&', lt: '<', gt: '>', quot: '"' };
  return value.replace(/&(?:#(\d+)|([a-z]+));/g, (_, code, name) => (code ? String.fromCodePoint(Number(code)) : named[name]));
}

/** @typedef {{ name: string, attributes: Record<string, string>, children: Element[], text: string }} Element */

/** The elements of a text of XML. */
function xmlElement(/** @type {string} */ whole) {
  ensure(!NO_XML.test(whole), 'a character stands in it that XML has not');
  /** @type {Element} */
  const top = { name: '', attributes: {}, children: [], text: '' };
  const open = [top];
  TOKEN.lastIndex = 0;
  while (TOKEN.lastIndex < whole.length) {
    const at = TOKEN.lastIndex;
    const found = TOKEN.exec(whole);
    ensure(found, `this is no XML: ${whole.slice(at, at + 60)}`);
    const [, closes, name, list, isEmpty, inside] = found;
    const around = open[open.length - 1];
    if (inside !== undefined) around.text += unescapedXml(inside);
    else if (closes) {
      ensure(around.name === name && open.length > 1, `${name} ends where another element is open`);
      open.pop();
    } else if (name) {
      const attributes = Object.fromEntries([...list.matchAll(/ ([a-z]+)="([^"]*)"/g)].map(([, key, value]) => [key, unescapedXml(value)]));
      /** @type {Element} */
      const made = { name, attributes, children: [], text: '' };
      around.children.push(made);
      if (!isEmpty) open.push(made);
    }
  }
  ensure(open.length === 1 && top.children.length === 1, 'an element is left open');
  return top.children[0];
}

/** The suites of a text of JUnit's XML, whose counts are those of their test cases. */
function junitSuites(/** @type {string} */ whole) {
  const top = xmlElement(whole);
  ensure(top.name === 'testsuites' && top.children.every(({ name }) => name === 'testsuite'), 'there are no suites');
  for (const suite of top.children) {
    ensure(suite.children.every(({ name, attributes }) => name === 'testcase' && attributes.name && attributes.classname), 'a test case has no name');
    const having = (/** @type {string} */ word) => suite.children.filter(({ children }) => children.some(({ name }) => name === word)).length;
    const counts = [suite.children.length, having('failure'), having('error')].map(String);
    ensure(counts.join() === ['tests', 'failures', 'errors'].map((it) => suite.attributes[it]).join(), `the suite counts otherwise than ${counts}`);
  }
  return top.children;
}

module.exports = { githubCommand, junitSuites, sarifRun };
