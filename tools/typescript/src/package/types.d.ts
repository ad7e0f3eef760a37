import { OwnTables } from '../tables/types';
import { Tree } from '../tree/types';
import { Answers } from './answers.js';
import { Kept } from './cache.js';
import { Files } from './files.js';
import { Lookup } from './resolve.js';
import { Asked } from './trace.js';
import { Projects } from './tsconfig.js';

export type MediaType =
  | 'Dts' | 'Dmts' | 'Dcts' | 'TypeScript' | 'Mts' | 'Cts' | 'Tsx' | 'JavaScript' | 'Mjs' | 'Cjs' | 'Jsx' | 'Json' | 'Unknown';

/** What is wrong with a file of a folder, with its place where it has one: lines and columns begin at 1. */
export interface FileError {
  path: string;
  message: string;
  code?: string;
  level?: 'Error' | 'Warning';
  hint?: string | null;
  line?: number;
  column?: number;
  length?: number;
}

/** `exports` of a configuration, or what the option says in its place. */
export type Exports = unknown;

/** What is known of a folder's configuration files. The members are those that the files have. */
export interface Config {
  [member: string]: unknown;
  name?: string;
  version?: string;
  exports?: Exports;
  imports?: Record<string, unknown>;
  types?: unknown;
  typings?: unknown;
  module?: unknown;
  main?: unknown;
  workspace?: string[] | { members?: string[] };
  workspaces?: string[] | { packages?: string[] };
  /** The files that were read. */
  read?: string[];
}

/** A source in place of which another file is taken. */
export interface Taken {
  written: string;
  dir: string;
  file: string;
}

/** A package as its configuration says it. `exports` are keys with files. */
export interface ConfiguredPackage {
  name: string;
  version: string;
  isVersioned: boolean;
  ranges: Record<string, string>;
  dir: string;
  imports: Record<string, string | null>;
  dependencies: Set<string>;
  needed: string[];
  exports: [key: string, file: string][];
  /** The codes of messages that the settings of the package allow, and the file of those that they know. */
  allow: string[];
  baseline: string | null;
}

/** A package that was read. `exports` are keys with paths from the package's folder. */
export interface Package {
  name: string;
  version: string;
  isVersioned: boolean;
  ranges: Record<string, string>;
  dir: string;
  needed: string[];
  exports: [key: string, path: string][];
  /** The codes of messages that the settings of the package allow, and the file of those that they know. */
  allow: string[];
  baseline: string | null;
  entryPoints: string[];
  url: string;
}

/** What the packages of a folder are read with, and lists that are filled. */
export interface PackageContext {
  files: Files;
  projects: Projects;
  answers: Answers;
  lookup: Lookup;
  errors: FileError[];
  faults: FileError[];
  taken: Taken[];
  isQuiet: boolean;
}

/** The same for the entry points of one package: its configuration, and the entry points that are given in place of those there. */
export interface EntryContext extends PackageContext {
  config: Config;
  given?: Exports;
}

/** A file that has no tree. */
export interface PlainFile {
  specifier: string;
  path: string;
  text: string;
}

export interface Script extends PlainFile {
  mediaType: MediaType;
}

export interface Module extends Script {
  isDeclaration: boolean;
  tree: Tree;
  hasEffects: boolean;
  /** What it is sent by, where it was made or is kept. */
  parts?: Parts;
  /** Under what its parts are kept. */
  key?: string;
  sourceFile?: ts.SourceFile;
  /** Of one that the program reads: whether a body names its return type by its only return. */
  namesReturns?: boolean;
  /** Of the same: the texts by which it names other modules. */
  leads?: { text: string; offset: number }[];
}

/** An import that leads out of the folder. */
export interface External {
  path: string;
  offset: number;
  text: string;
  specifier: string;
  name: string;
  isExplained: boolean;
}

/** A relative import that leads to no file of the folder. */
export interface Missing {
  path: string;
  offset: number;
  text: string;
  isOutside: boolean;
}

/** In which module a text stands, the text, and where it leads. */
export type Resolution = [from: string, text: string, to: string];

/** How long the parts of reading took, in milliseconds. */
export interface Times {
  parse: number;
  tree: number;
  tables?: number;
}

export interface ReadOptions {
  name?: string;
  version?: string;
  exports?: Exports;
  rules?: string;
  /** Whether no comment and no setting of a package counts. */
  noIgnore?: boolean;
  short?: boolean;
  keepSourceFiles?: boolean;
  kept?: Kept | null;
  texts?: Map<string, string>;
  /** The folders of a workspace's members, where they are known. */
  members?: string[];
  isQuiet?: boolean;
  onModule?: (name: string, count: number) => void;
}

/** What is found of a folder. */
export interface Found {
  packages: Package[];
  modules: Module[];
  scripts: Script[];
  jsonModules: PlainFile[];
  externals: External[];
  resolutions: Resolution[];
  missing: Missing[];
  errors: FileError[];
  faults: FileError[];
  taken: Taken[];
  times: Times;
  dirOf(file: string): string | null;
  caught(file: string, error: unknown): void;
}

/** What is wrong with an entry point: what stands behind its path in the message, and what else the message has. */
export interface Wrong {
  message: string;
  more: Partial<FileError>;
}

/** The text of a file, and where it is no text; -1 where it is. */
export interface ReadText {
  text: string;
  wrong: number;
}

/** The object in a tsconfig.json file. */
export interface RawConfig {
  [member: string]: unknown;
  extends?: unknown;
  references?: unknown;
}

/** Which files the compiler takes, as it is asked for them. */
export interface Patterns {
  endings?: readonly string[];
  excludes?: readonly string[];
  includes?: readonly string[];
  depth?: number;
}

/** Answers of the compiler about files of a folder by names, and what was asked of the file system for them. */
export interface KeptAnswers {
  asked: Asked[];
  found: [name: string, answer: unknown][];
}

/** What is kept of a module. */
export interface Parts {
  source: string;
  sources?: import('../tree/types').TreeSource[];
  tables: OwnTables;
  hasEffects: boolean;
  /** Whether a body may name its return type, and whether a name has a mark that is taken away again. */
  marks: { namesReturns: boolean; isMarked: boolean };
  /** What it is but for its places, where it is kept between runs. */
  shape?: string;
}
