'use strict';
// Runs `verify.js`, `fix.js` and `compatibility.js` in a thread of its own, whose memory runs out without the end of the command. The thread stays for further folders.
const v8 = require('v8');
const { Worker, isMainThread, parentPort, workerData } = require('worker_threads');
const { candidateFiles, chosen } = require('./find.js');
const { Lines } = require('../tree/lines.js');

/** @typedef {import('../cli/types').Context} Context */
/** @typedef {import('../cli/types').Asked} Asked */

/** @typedef {import('../cli/types').Options} Options */
/** @typedef {import('../program/types').Progress} Progress */
/** @typedef {import('../program/types').RunContext} RunContext */
/** @typedef {import('../diff/types').Advised} Advised */
/** @typedef {{ warnings: Message[], broken: Message[], messages: Message[] }} Told */
/** @typedef {import('../diff/types').ComparedNames} ComparedNames */
/** @typedef {import('../program/types').World} World */
/** @typedef {import('../cli/types').HandedMessage} HandedMessage */
/** @typedef {import('../messages/types').Message} Message */

/**
 * What a thread says: what is at work, what was thrown there, or the answer.
 *
 * @template R
 * @typedef {{ told?: ['begin' | 'tell' | 'line', string], thrown?: { error: Error, more: { messages?: HandedMessage[] } }, answer?: R }} Answered
 */

/** @typedef {{ packages: { name: string, version: string }[], warnings: HandedMessage[], broken: HandedMessage[], messages: HandedMessage[], texts: Map<string, string>, count: number }} FixedAnswer */

/** @typedef {{ error: Error, more?: { messages?: HandedMessage[] } }} Thrown */
/** @typedef {{ progress: Progress, signal?: AbortSignal }} Asking */

const MEGABYTE = 1 << 20;
/** @type {Map<string, Worker>} */
const threads = new Map();

/** What `verify.js` asks of an analysed folder, without what no thread can be handed. */
function handed(/** @type {World} */ { dir, request, info, files, skeletons }) {
  const entries = new Set(info.entryPoints);
  const shortened = (/** @type {forms.Program | null} */ program) => ({ program: program && program.Script ? { Script: { body: (program.Script.body || []).slice(0, 1) } } : {} });
  const modules = info.modules.filter((each) => entries.has(each.specifier)).map((each) => (
    { specifier: each.specifier, path: each.path, tree: shortened(each.tree.program) }));
  const jsonModules = (info.jsonModules || []).map((each) => ({ specifier: each.specifier, path: each.path, text: each.text }));
  return {
    dir, skeletons, request: { graph: { resolutions: request.graph.resolutions }, aliases: request.aliases },
    info: { entryPoints: info.entryPoints, modules, jsonModules, packages: info.packages.map(({ url }) => ({ url })) },
    files: new Map([...files].map(([specifier, each]) => [specifier, { specifier, path: each.path, text: each.text, name: each.name }])),
  };
}

/** The error that memory ran out, with what gives more. */
function memoryError(/** @type {number} */ limit) {
  const more = `\`NODE_OPTIONS=--max-old-space-size=${2 * limit}\` gives twice as much`;
  return Object.assign(new Error(`out of memory: TypeScript's compiler needs more than the ${limit} MB that Node has; ${more}`), { status: 3 });
}

/** Has nothing more asked of a thread that ends. */
function forget(/** @type {Worker | undefined} */ thread) {
  for (const [key, each] of threads) if (each === thread) threads.delete(key);
}

/** The thread for the compiler that is chosen now. */
function threadFor(/** @type {number} */ limit) {
  const [key] = candidateFiles();
  if (!threads.has(key)) {
    const made = new Worker(__filename, { workerData: { own: chosen.own }, resourceLimits: { maxOldGenerationSizeMb: limit } });
    made.on('exit', () => forget(made));
    made.unref();
    threads.set(key, made);
  }
  return /** @type {Worker} */ (threads.get(key));
}

/**
 * What the thread says to something that is asked, one thing at a time. What is at work there is reported meanwhile; `signal` ends the thread early.
 *
 * @template R
 * @param {object} asked
 * @param {Asking} context
 * @returns {Promise<R>}
 */
function askThread(asked, { progress, signal }) {
  const limit = Math.floor(v8.getHeapStatistics().heap_size_limit / MEGABYTE);
  if (signal && signal.aborted) return Promise.reject(signal.reason);
  const thread = threadFor(limit);
  return new Promise((resolve, reject) => {
    const stop = () => {
      forget(thread);
      thread.terminate();
      failed({ error: signal && signal.reason });
    };
    /** @type {<T>(call: (value: T) => void) => (value: T) => void} */
    const end = (call) => (value) => {
      thread.removeAllListeners('message').removeAllListeners('error').unref();
      if (signal) signal.removeEventListener('abort', stop);
      call(value);
    };
    const failed = end((/** @type {Thrown} */ { error, more }) => reject(more ? Object.assign(error, more, more.messages && { messages: withLines(more.messages) }) : error));
    const answered = end((/** @type {R | undefined} */ answer) => resolve(/** @type {R} */ (answer)));
    thread.on('message', (/** @type {Answered<R>} */ { told, thrown, answer }) => {
      if (told) progress[told[0]](told[1]);
      else if (thrown) failed(thrown);
      else answered(answer);
    });
    thread.once('error', end((/** @type {NodeJS.ErrnoException} */ error) => reject(error.code === 'ERR_WORKER_OUT_OF_MEMORY' ? memoryError(limit) : error)));
    if (signal) signal.addEventListener('abort', stop);
    thread.ref();
    thread.postMessage(asked);
  });
}

/** @type {Promise<unknown>} */
let last = Promise.resolve();

/**
 * As `askThread`, behind all that was asked before.
 *
 * @template R
 * @param {object} asked
 * @param {Asking} context
 * @returns {Promise<R>}
 */
function ask(asked, context) {
  /** @type {Promise<R>} */
  const answer = last.then(() => askThread(asked, context));
  last = answer.catch(() => {});
  return answer;
}

/** Messages as a thread may be handed them, with the texts of their lines. */
/** @type {(messages: Message[]) => HandedMessage[]} */
const withTexts = (messages) => messages.map(({ lines, ...each }) => (lines ? { ...each, lines: lines.text } : each));
/** @type {(messages: HandedMessage[]) => Message[]} */
const withLines = (messages) => messages.map((each) => /** @type {Message} */ (each.lines === undefined ? each : { ...each, lines: new Lines(each.lines) }));

/**
 * What the compiler finds in the skeletons of a folder, or declares for them, and not in and for the sources, as messages.
 *
 * @returns {Promise<Message[]>}
 */
async function verified(/** @type {World} */ world, /** @type {Asking & { cwd: string }} */ context) {
  /** @type {HandedMessage[]} */
  const answer = await ask({ task: 'verify', world: handed(world), cwd: context.cwd }, context);
  return withLines(answer);
}

/**
 * What `compatibility` says of public names of two versions of a package.
 *
 * @returns {Promise<Map<string, Advised>>}
 */
async function compared(/** @type {World} */ before, /** @type {World} */ after, /** @type {ComparedNames[]} */ names, /** @type {Asking} */ context) {
  return ask({ task: 'compare', before: handed(before), after: handed(after), names }, context);
}

/**
 * What `fix` makes of a folder: its packages and messages, the texts that changed, and how many types were written.
 *
 * @returns {Promise<{ world: Told & { info: { packages: FixedAnswer['packages'] } }, texts: Map<string, string>, count: number }>}
 */
async function fixed(/** @type {string} */ dir, /** @type {import('../program/types').AnalyseOptions} */ options, /** @type {RunContext} */ context) {
  const { kept, ...others } = options;
  const { cwd, environment } = context;
  /** @type {FixedAnswer} */
  const { packages, warnings, broken, messages, texts, count } = await ask({ task: 'fix', dir, options: others, cwd, environment: { ...environment } }, context);
  const world = { info: { packages }, warnings: withLines(warnings), broken: withLines(broken), messages: withLines(messages) };
  return { world, texts, count };
}

// ---- in the thread

/** Hands on what is at work. */
class ToldProgress {
  constructor(/** @type {(told: [string, string]) => void} */ tell) {
    this.begin = (/** @type {string | null} */ text) => tell(['begin', text || '']);
    this.tell = (/** @type {string} */ text) => tell(['tell', text]);
    this.line = (/** @type {string} */ text) => tell(['line', text]);
  }

  /**
   * Says that something is waited for.
   *
   * @template T
   * @param {string} stage
   * @param {Promise<T>} promise
   */

  async during(/** @type {string} */ stage, promise) {
    this.begin(stage);
    return promise;
  }
}

const TASKS = {
  async verify(/** @type {{ world: World, cwd: string }} */ { world, cwd }) {
    const { verify } = require('../verify/index.js');
    for (const file of world.files.values()) Object.assign(file, { lines: new Lines(file.text) });
    return withTexts(verify(world, { cwd }));
  },

  async compare(/** @type {{ before: World, after: World, names: ComparedNames[] }} */ { before, after, names }) {
    const { compatibility } = require('../diff/compatibility.js');
    return compatibility(before, after, names);
  },

  /**
   * @param {{ dir: string, options: Options, cwd: string, environment: Record<string, string | undefined> }} asked
   * @returns {Promise<FixedAnswer>}
   */
  async fix({ dir, options, cwd, environment }) {
    const { fix } = require('../fix/index.js');
    const { keptFor } = require('../package/cache.js');
    const kept = keptFor(options, environment);
    const { world, texts, count } = await fix(dir, { ...options, kept }, { cwd, environment, progress: new ToldProgress((told) => parentPort && parentPort.postMessage({ told })) });
    kept.end();
    const packages = world.info.packages.map(({ name, version }) => ({ name, version }));
    return { packages, warnings: withTexts(world.warnings), broken: withTexts(world.broken), messages: withTexts(world.messages), texts, count };
  },
};

/** The answer to what the thread is asked, or what was thrown. */
async function answerTo(/** @type {{ task: keyof typeof TASKS }} */ asked) {
  try {
    const task = /** @type {(asked: object) => Promise<unknown>} */ (TASKS[asked.task]);
    return { answer: await task(asked) };
  } catch (thrown) {
    const error = /** @type {import('../cli/types').KnownError} */ (thrown);
    return { thrown: { error, more: { ...error, ...(error.messages && { messages: withTexts(error.messages) }) } } };
  }
}

if (!isMainThread && workerData && parentPort) {
  // Without compiled code, which a thread with little memory does not take: it would end the whole command.
  chosen.own = workerData.own;
  const port = parentPort;
  port.on('message', async (asked) => port.postMessage(await answerTo(asked)));
}

module.exports = { compared, fixed, verified };
