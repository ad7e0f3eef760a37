'use strict';
// What lies around a folder, as far as the compiler needs it for types: the workspace that the folder is a member of, and the packages of the system.
const fs = require('fs');
const { builtinModules } = require('module');
const path = require('path');
const { Answers } = require('./answers.js');
const { configOf, membersOf } = require('./config.js');
const { Files, isInside, isJavaScript, mediaTypeOf } = require('./files.js');
const { resolverOf } = require('./read.js');
const { RELATIVE } = require('./resolve.js');
const { resolvedModule } = require('../compiler/resolve.js');
const { whole: ts } = require('../compiler/typescript.js');

// Where Debian's Node finds packages beside those of the variable NODE_PATH.
const SYSTEM = ['/usr/share/nodejs', '/usr/lib/nodejs'];

/** The folders of the members of a workspace. */
function allMembers(/** @type {string} */ folder) {
  const files = new Files(folder);
  return membersOf(folder, configOf(folder, files, []), { files, answers: new Answers(files, null), faults: [] });
}

/** The innermost workspace that a folder, or one around it, is a member of: its folder, null where there is none, and those of its members. */
function workspaceAround(/** @type {string} */ dir) {
  for (let at = path.dirname(dir); path.dirname(at) !== at; at = path.dirname(at)) {
    const members = allMembers(at);
    if (members.some((it) => it === dir || isInside(it, dir))) return { folder: at, members: members.filter((it) => isInside(at, it)) };
  }
  return { folder: null, members: [] };
}

/** What the compiler finds at a path, as it finds a package in `node_modules`. */
function moduleAt(/** @type {string} */ file, /** @type {string} */ from, /** @type {ts.CompilerOptions} */ options) {
  const found = resolvedModule(file, from, options, ts.sys);
  return found && { ...found, isExternalLibraryImport: true };
}

const isTyped = (/** @type {ts.ResolvedModule | null | undefined} */ found) => Boolean(found && !isJavaScript(mediaTypeOf(found.resolvedFileName)));

/** @type {Map<string | null, (from: string, text: string) => string | null>} */
const workspaces = new Map();

/** Where the texts of a workspace's files lead inside of it. */
function inWorkspace(/** @type {{ folder: string | null, members: string[] }} */ { folder, members }) {
  const known = workspaces.get(folder);
  const made = known || (folder === null ? () => null : resolverOf(folder, members));
  workspaces.set(folder, made);
  return made;
}

class Surroundings {
  constructor(/** @type {string} */ dir) {
    this.dir = dir;
    const around = workspaceAround(dir);
    this.workspace = around.folder;
    this.inWorkspace = inWorkspace(around);
    const named = (process.env.NODE_PATH || '').split(path.delimiter).filter(path.isAbsolute);
    this.system = [...named, ...SYSTEM].filter((it) => fs.existsSync(it));
  }

  /** The module of another member of the workspace, or of an alias there. */
  ofWorkspace(/** @type {string} */ text, /** @type {string} */ from) {
    const found = this.workspace !== null && isInside(this.workspace, from) ? this.inWorkspace(from, text) : null;
    if (found === null || mediaTypeOf(found) === 'Unknown' || isJavaScript(mediaTypeOf(found))) return undefined;
    return { resolvedFileName: found, extension: (/\.d\.[cm]?ts$|\.[a-z]+$/.exec(found) || [''])[0], isExternalLibraryImport: false };
  }

  /** The module of a package of the system that has types. */
  ofSystem(/** @type {string} */ text, /** @type {string} */ from, /** @type {ts.CompilerOptions} */ options) {
    if (RELATIVE.test(text) || path.isAbsolute(text) || /^[a-z]+:/.test(text)) return undefined;
    const typed = `@types/${text.replace(/^@([^/]+)\//, '$1__')}`;
    const wanted = this.system.flatMap((it) => [path.join(it, text), path.join(it, typed)]);
    return wanted.map((it) => moduleAt(it, from, options)).find(isTyped);
  }

  /** Where a text of a file leads: into the workspace, into `node_modules` as the compiler finds it, or to a package of the system. */
  resolve(/** @type {string} */ text, /** @type {string} */ from, /** @type {ts.CompilerOptions} */ options, /** @type {ts.ModuleResolutionHost} */ host) {
    const near = this.ofWorkspace(text, from);
    if (near) return near;
    const found = resolvedModule(text, from, options, host);
    return (isTyped(found) ? null : this.ofSystem(text, from, options)) || found;
  }

  /** The declarations of Node's own modules among the packages of the system, for a folder that uses some and has none in its `node_modules`. */
  nodeTypes(/** @type {string[]} */ texts) {
    const isAsked = texts.some((it) => it.startsWith('node:') || builtinModules.includes(it));
    const own = ts.findConfigFile(this.dir, ts.sys.fileExists, 'node_modules/@types/node/index.d.ts');
    if (!isAsked || own) return [];
    return this.system.map((it) => path.join(it, '@types/node/index.d.ts')).filter((it) => fs.existsSync(it)).slice(0, 1);
  }
}

module.exports = { Surroundings };
