'use strict';
// The language server: slow types as one types, and quick fixes that write them. https://microsoft.github.io/language-server-protocol, version 3.17
const fs = require('fs');
const path = require('path');
const { pathToFileURL } = require('url');
const { VERSION } = require('../cli/installed.js');
const { NAMES, packageAround } = require('../cli/targets.js');
const { isInside } = require('../package/files.js');
const { Connection, ResponseError } = require('./connection.js');
const { changedText, offsetAt, pathOf } = require('./documents.js');
const { Project } = require('./project.js');

/** @typedef {import('./types').Settings} Settings */

/** @typedef {import('./types').Diagnostic} Diagnostic */
/** @typedef {import('./types').CodeAction} CodeAction */
/** @typedef {import('./types').Range} Range */
/** @typedef {{ textDocument: { uri: string }, range: Range, context?: { only?: string[] } }} ActionParams */
/** @typedef {{ uri: string }} Named */

const FIX_ALL = 'source.fixAll.nagdrez';
const SOURCES = '**/*.{ts,tsx,mts,cts,json,jsonc,yaml}';

/** Whether a kind of action is asked for: `source` asks for `source.fixAll` too. */
function isWanted(/** @type {string} */ kind, /** @type {string[] | undefined} */ only) {
  return !only || only.some((each) => each === '' || kind === each || kind.startsWith(`${each}.`));
}

class Server {
  constructor(/** @type {NodeJS.ReadableStream} */ input, /** @type {NodeJS.WritableStream} */ output, /** @type {(status: number) => void} */ exit) {
    this.exit = exit;
    /** @type {Map<string, string>} */
    this.texts = new Map();
    /** @type {Settings} */
    this.settings = {};
    /** @type {string[]} */
    this.folders = [];
    /** @type {Map<string, Project>} */
    this.projects = new Map();
    // The diagnostics of each document by the packages that report them.
    /** @type {Map<string, Map<string, Diagnostic[]>>} */
    this.published = new Map();
    this.canResolve = false;
    this.canWatch = false;
    this.state = 'new';
    this.connection = new Connection(input, output, this.handlers());
    input.on('end', () => exit(this.state === 'stopped' ? 0 : 1));
    /** @type {import('./types').Host} */
    this.host = {
      texts: this.texts,
      settings: this.settings,
      publish: (dir, diagnostics) => this.publish(dir, diagnostics),
      log: (message, type = 4) => this.connection.notify('window/logMessage', { type, message }),
    };
  }

  /**
   * The methods that a client may call.
   *
   * @returns {Record<string, import('./types').Handler>}
   */
  handlers() {
    /** @type {Record<string, import('./types').Handler>} */
    const asked = {
      'textDocument/codeAction': (params, signal) => this.codeActions(params, signal),
      'codeAction/resolve': (params, signal) => this.resolve(params, signal),
      shutdown: () => this.shutdown(),
      initialized: () => this.begin(),
      'textDocument/didOpen': ({ textDocument: { uri, text } }) => this.change(uri, () => text),
      'textDocument/didChange': ({ textDocument: { uri }, contentChanges }) => this.change(uri, (before) => changedText(before || '', contentChanges)),
      'textDocument/didClose': ({ textDocument: { uri } }) => this.change(uri, () => undefined),
      'textDocument/didSave': () => {},
      'workspace/didChangeConfiguration': ({ settings }) => this.configure(settings),
      'workspace/didChangeWatchedFiles': ({ changes }) => this.changedFiles(changes.map((/** @type {Named} */ { uri }) => pathOf(uri))),
      'workspace/didChangeWorkspaceFolders': ({ event }) => this.changeFolders(event),
    };
    const ready = Object.entries(asked).map(([method, call]) => [method, /** @type {import('./types').Handler} */ (params, signal) => {
      if (this.state === 'new') throw new ResponseError('notInitialized', 'the server is not initialized');
      if (this.state === 'stopped') throw new ResponseError('invalidRequest', 'the server is shut down');
      return call(params, signal);
    }]);
    return { ...Object.fromEntries(ready), initialize: (params) => this.initialize(params), exit: () => this.exit(this.state === 'stopped' ? 0 : 1) };
  }

  /** @param {import('./types').InitializeParams} params */
  initialize({ capabilities = {}, workspaceFolders, rootUri, initializationOptions }) {
    if (this.state !== 'new') throw new ResponseError('invalidRequest', 'the server is initialized already');
    this.state = 'ready';
    const { textDocument = {}, workspace = {} } = capabilities;
    const resolved = ((textDocument.codeAction || {}).resolveSupport || {}).properties || [];
    this.canResolve = resolved.includes('edit');
    this.canWatch = Boolean((workspace.didChangeWatchedFiles || {}).dynamicRegistration);
    this.configure({ nagdrez: initializationOptions || {} });
    const roots = workspaceFolders ? workspaceFolders.map(({ uri }) => uri) : rootUri ? [rootUri] : [];
    this.folders = roots.flatMap((uri) => pathOf(uri) || []);
    return {
      capabilities: {
        positionEncoding: 'utf-16',
        textDocumentSync: { openClose: true, change: 2, save: false },
        codeActionProvider: { codeActionKinds: ['quickfix', FIX_ALL], resolveProvider: true },
        workspace: { workspaceFolders: { supported: true, changeNotifications: true } },
      },
      serverInfo: { name: 'nagdrez', version: VERSION },
    };
  }

  begin() {
    if (this.canWatch) {
      const registerOptions = { watchers: [{ globPattern: SOURCES }] };
      this.connection.request('client/registerCapability', { registrations: [{ id: 'watch', method: 'workspace/didChangeWatchedFiles', registerOptions }] });
    }
    for (const folder of this.folders) this.openFolder(folder);
  }

  shutdown() {
    this.state = 'stopped';
    for (const project of this.projects.values()) project.close();
    return null;
  }

  /** Checks the package of a folder, where the folder has one. */
  openFolder(/** @type {string} */ folder) {
    if (NAMES.some((name) => fs.existsSync(path.join(folder, name)))) this.projectOf(folder).checkSoon();
  }

  projectOf(/** @type {string} */ dir) {
    const made = this.projects.get(dir) || new Project(dir, this.host);
    this.projects.set(dir, made);
    return made;
  }

  /** The packages whose check reads a file: those that it lies in, and the one around it. */
  projectsOf(/** @type {string} */ file) {
    const around = this.projectOf(packageAround(file));
    return new Set([around, ...[...this.projects.values()].filter(({ dir }) => isInside(dir, file))]);
  }

  /** Takes the text that a document has now; undefined closes it. */
  change(/** @type {string} */ uri, /** @type {(before: string | undefined) => string | undefined} */ textOf) {
    const file = pathOf(uri);
    if (!file) return;
    const text = textOf(this.texts.get(file));
    if (text === undefined) this.texts.delete(file);
    else this.texts.set(file, text);
    for (const project of this.projectsOf(file)) project.checkSoon(file);
  }

  changedFiles(/** @type {(string | null)[]} */ files) {
    const changed = files.flatMap((file) => (file && !file.split(path.sep).includes('node_modules') ? file : []));
    for (const project of this.projects.values()) if (changed.some((file) => isInside(project.dir, file))) project.checkSoon();
  }

  configure(/** @type {{ nagdrez: Settings; }} */ settings) {
    const { allow, rules } = (settings && settings.nagdrez) || {};
    Object.assign(this.settings, { allow: Array.isArray(allow) ? allow : undefined, rules: rules === 'deno' ? rules : undefined });
    for (const [dir, project] of [...this.projects]) {
      project.close();
      this.projects.delete(dir);
      this.projectOf(dir).checkSoon();
    }
  }

  changeFolders(/** @type {{ added: Named[], removed: Named[] }} */ { added, removed }) {
    const gone = removed.flatMap(({ uri }) => pathOf(uri) || []);
    for (const [dir, project] of this.projects) {
      if (!gone.some((folder) => dir === folder || isInside(folder, dir))) continue;
      project.close();
      this.projects.delete(dir);
    }
    for (const folder of added.flatMap(({ uri }) => pathOf(uri) || [])) this.openFolder(folder);
  }

  /** Takes the diagnostics of a package. Of a file that several packages report, as a workspace and its member, the innermost one's are shown. */
  publish(/** @type {string} */ dir, /** @type {Map<string, Diagnostic[]>} */ diagnostics) {
    for (const uri of new Set([...diagnostics.keys(), ...this.published.keys()])) {
      /** @type {Map<string, Diagnostic[]>} */
      const byDir = this.published.get(uri) || new Map();
      const had = byDir.delete(dir);
      const own = diagnostics.get(uri);
      if (own) byDir.set(dir, own);
      else if (!had) continue;
      const [innermost] = [...byDir.keys()].sort((one, other) => other.length - one.length);
      this.connection.notify('textDocument/publishDiagnostics', { uri, diagnostics: innermost ? byDir.get(innermost) : [] });
      if (byDir.size) this.published.set(uri, byDir);
      else this.published.delete(uri);
    }
  }

  /** What can be done about the messages of a place: the edits are made when one is chosen, where the client can wait for them. */
  async codeActions(/** @type {ActionParams} */ { textDocument: { uri }, range, context }, /** @type {AbortSignal} */ signal) {
    const file = pathOf(uri);
    if (!file) return [];
    const project = this.projectOf(packageAround(file));
    const all = project.fixable(file);
    const here = all.filter(({ lines, start, end }) => start <= offsetAt(lines, range.end) && offsetAt(lines, range.start) <= end);
    const actions = [
      ...here.map(({ start, code }) => ({ title: 'Write the missing type', kind: 'quickfix', isPreferred: true, data: { uri, start, code } })),
      ...(all.length ? [{ title: 'Write all missing types in this file', kind: FIX_ALL, data: { uri } }] : []),
    ].filter(({ kind }) => isWanted(kind, context && context.only));
    return this.canResolve ? actions : Promise.all(actions.map((each) => this.resolve(each, signal)));
  }

  /** An action with its edit. */
  async resolve(/** @type {CodeAction} */ action, /** @type {AbortSignal} */ signal) {
    const { uri = '', start } = action.data || {};
    const file = pathOf(uri);
    if (!file) throw new ResponseError('invalidParams', 'the action has no document');
    const edits = await this.projectOf(packageAround(file)).fixes(file, start, signal);
    return { ...action, edit: { changes: { [pathToFileURL(file).href]: edits } } };
  }
}

module.exports = { Server };
