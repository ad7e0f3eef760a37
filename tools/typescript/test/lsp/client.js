'use strict';
// A client of the language server, as an editor is one.
const childProcess = require('child_process');
const fs = require('fs');
const os = require('os');
const path = require('path');
const { pathToFileURL } = require('url');
const { Framing } = require('../../src/lsp/connection.js');

/** @typedef {import('../../src/lsp/types').RpcMessage} RpcMessage */
/** @typedef {import('../../src/lsp/types').Diagnostic} Diagnostic */
/** @typedef {import('../../src/lsp/types').TextChange} TextChange */
/** @typedef {{ resolve: (result: unknown) => void, reject: (error: Error) => void }} Asked */

const TOOL = path.resolve(__dirname, '../../bin/fast-check-ts.js');

class Client {
  /** Starts a server for a folder. */
  constructor(/** @type {string} */ folder, /** @type {NodeJS.ProcessEnv} */ environment = {}) {
    this.folder = folder;
    this.child = childProcess.spawn(process.execPath, [TOOL, 'lsp'], { cwd: folder, stdio: ['pipe', 'pipe', 'pipe'], env: { ...process.env, ...environment } });
    /** @type {Map<string, Diagnostic[]>} */
    this.diagnostics = new Map();
    /** @type {{ type: number, message: string }[]} */
    this.logs = [];
    /** @type {{ code: number }[]} */
    this.refusals = [];
    /** @type {Map<unknown, Asked>} */
    this.asked = new Map();
    /** @type {Set<() => void>} */
    this.waiting = new Set();
    this.next = 1;
    this.said = '';
    const framing = new Framing((message) => this.receive(message), (text) => { throw new Error(text); });
    this.child.stdout.on('data', (part) => framing.take(part));
    this.child.stderr.on('data', (part) => { this.said += part; });
    this.child.stdin.on('error', () => {});
    this.status = new Promise((resolve) => this.child.on('exit', (code, signal) => resolve(signal || code)));
  }

  receive(/** @type {RpcMessage} */ { id, method, params, result, error }) {
    const told = /** @type {{ uri: string, diagnostics: Diagnostic[], type: number, message: string }} */ (params);
    if (method !== undefined && id !== undefined) this.send({ id, result: null });
    else if (id === null) this.refusals.push(error || { code: 0 });
    else if (id !== undefined) {
      const { resolve, reject } = /** @type {Asked} */ (this.asked.get(id));
      if (error) reject(Object.assign(new Error(error.message), error));
      else resolve(result);
    } else if (method === 'textDocument/publishDiagnostics') this.diagnostics.set(told.uri, told.diagnostics);
    else if (method === 'window/logMessage') this.logs.push(told);
    for (const look of this.waiting) look();
  }

  write(/** @type {string | Buffer} */ bytes) {
    this.child.stdin.write(bytes);
  }

  send(/** @type {RpcMessage} */ message) {
    const text = JSON.stringify({ jsonrpc: '2.0', ...message });
    this.write(`Content-Length: ${Buffer.byteLength(text)}\r\n\r\n${text}`);
  }

  /**
   * Asks the server; the promise has the id of the request as `id`.
   *
   * @template R
   * @param {string} method
   * @param {object} [params]
   * @returns {Promise<R> & { id: number }}
   */
  request(method, params) {
    const id = this.next++;
    /** @type {Promise<R>} */
    const answer = new Promise((resolve, reject) => this.asked.set(id, { resolve: (result) => resolve(/** @type {R} */ (result)), reject }));
    this.send({ id, method, params });
    return Object.assign(answer, { id });
  }

  notify(/** @type {string} */ method, /** @type {object} */ params = {}) {
    this.send({ method, params });
  }

  /**
   * Waits until a test of what was received holds.
   *
   * @param {() => unknown} test
   * @param {string} what
   * @returns {Promise<void>}
   */
  until(test, what, seconds = 60) {
    return new Promise((resolve, reject) => {
      const end = (/** @type {() => void} */ call) => {
        clearTimeout(timer);
        this.waiting.delete(look);
        call();
      };
      const look = () => test() && end(resolve);
      const timer = setTimeout(() => end(() => reject(new Error(`${what} did not come in ${seconds} seconds\n${this.said}${JSON.stringify(this.logs)}`))), seconds * 1000);
      this.waiting.add(look);
      look();
    });
  }

  uri(/** @type {string} */ name) {
    return pathToFileURL(path.join(this.folder, name)).href;
  }

  /** The diagnostics of a file as `code line:character`. */
  shown(/** @type {string} */ name) {
    return (this.diagnostics.get(this.uri(name)) || []).map(({ code, range: { start } }) => `${code} ${start.line}:${start.character}`);
  }

  async begin(capabilities = {}, others = {}) {
    /** @type {{ capabilities: { positionEncoding: string }, serverInfo: { name: string } }} */
    const result = await this.request('initialize', { processId: process.pid, capabilities, workspaceFolders: [{ uri: pathToFileURL(this.folder).href, name: 'it' }], ...others });
    this.notify('initialized', {});
    return result;
  }

  open(/** @type {string} */ name, /** @type {string} */ text) {
    this.notify('textDocument/didOpen', { textDocument: { uri: this.uri(name), languageId: 'typescript', version: 1, text } });
  }

  change(/** @type {string} */ name, /** @type {TextChange[]} */ ...contentChanges) {
    this.notify('textDocument/didChange', { textDocument: { uri: this.uri(name), version: 2 }, contentChanges });
  }

  async end() {
    await this.request('shutdown');
    this.notify('exit');
    return this.status;
  }
}

/** Calls with a client of a folder with some files, and ends both. */
async function withFiles(/** @type {Record<string, string>} */ files, /** @type {(client: Client, folder: string) => Promise<void>} */ call, /** @type {NodeJS.ProcessEnv} */ environment = {}) {
  const folder = fs.mkdtempSync(path.join(os.tmpdir(), 'fast-check-editor-'));
  for (const [name, text] of Object.entries({ 'deno.json': '{"name": "@me/it", "version": "1.0.0", "exports": "./mod.ts"}', ...files })) {
    fs.mkdirSync(path.dirname(path.join(folder, name)), { recursive: true });
    fs.writeFileSync(path.join(folder, name), text);
  }
  const client = new Client(folder, environment);
  try {
    await call(client, folder);
  } finally {
    client.child.kill('SIGKILL');
    await client.status;
    fs.rmSync(folder, { recursive: true, force: true });
  }
}

module.exports = { Client, withFiles };
