// The request and the answer of `fast-check build`, as docs/FORMATS.md has them, and what the commands know of a folder.
import { Options } from '../cli/types';
import { Message } from '../messages/types';
import { External, MediaType, Missing, Module, Package, PlainFile, FileError, Resolution, Script, Taken, Times } from '../package/types';
import { ModuleTables } from '../tables/types';
import * as forms from '../tree/forms';
import { Lines } from '../tree/lines.js';
import { Comments } from '../tree/types';
import { JsonText } from './request.js';

/** The source of a module, as the program reads it. */
export interface Source {
  media_type: MediaType;
  text: string;
  program: forms.Program;
  comments: Comments;
  unresolved_context?: number;
}

export interface EsmModule extends ModuleTables {
  specifier: string;
  source: Source | JsonText;
}

export interface JsonModule extends ModuleTables {
  specifier: string;
}

export type RequestModule = [specifier: string, choice: { Esm?: EsmModule; Json?: JsonModule }];

export interface Graph {
  modules: [specifier: string, kind: 'External' | { Js?: { media_type: MediaType }; Json?: {} }][];
  resolutions: Resolution[];
  packages: [name: string, exports: [string, string][]][];
}

export interface Request {
  graph: Graph;
  modules: RequestModule[];
  aliases: [string, string][];
  workspace_members: { name: string; version: string; base: string; exports: [key: string, path: string][] }[];
  provider: { packages: unknown[]; fallback: string };
  pending: string[];
  first: boolean;
}

export interface Diagnostic {
  code: string;
  docs_url: string | null;
  hint: string | null;
  info: string[];
  level: 'Error' | 'Warning';
  message: string;
  range: forms.Span | null;
  specifier: string;
}

export interface Skeleton {
  program: forms.Module;
  comments: Comments;
  module_info?: { sources: { is_export: boolean; range: forms.Span; specifier: string; type_only: boolean }[] };
}

/** What a skeleton may have. */
export interface Traits {
  mayKeepValue: boolean;
  mayHaveMade: boolean;
  mayHaveDefault: boolean;
}

/** Where an answer stands in the program's line; `traits` are those of a skeleton. */
export interface AnswerAt {
  specifier: string;
  start: number;
  end: number;
  traits: Traits | null;
}

export type Answer = [specifier: string, answer: { Ok?: Skeleton; Err?: Diagnostic[] }];

/** What is known of a folder beside the request. */
export interface Info {
  packages: Package[];
  entryPoints: string[];
  modules: Module[];
  scripts: Script[];
  jsonModules: PlainFile[];
  externals: External[];
  missing: Missing[];
  errors: FileError[];
  faults: FileError[];
  taken: Taken[];
  times: Times;
}

/** A module's file, with the name from the folder. */
export interface SourceFile {
  specifier: string;
  path: string;
  text: string;
  name: string;
  readonly lines: Lines;
  /** The compiler's tree of it, where it was asked for. */
  parsed?: ts.SourceFile;
}

/** What is right of a folder of which something is wrong. `unknown` are declarations, as `specifier\nname`. */
export interface Preview {
  skeletons: Map<string, Skeleton>;
  partial: Map<string, Skeleton>;
  unknown: Set<string>;
}

/** A folder that was read. */
export interface ReadFolder {
  dir: string;
  request: Request;
  info: Info;
  files: Map<string, SourceFile>;
  warnings: Message[];
  /** Why packages of it cannot be read. */
  broken: Message[];
  faults: Message[];
  /** Imports that lead nowhere, of names that an entry point exports. */
  lost: Message[];
}

/** A folder that was read, with the program's answers. */
export interface World extends ReadFolder {
  answers: Answer[];
  skeletons: Map<string, Skeleton>;
  messages: Message[];
  preview?: Preview | null;
  /** Whether the program has read it. */
  isBySource?: boolean;
}

/** What prints skeletons and looks at them needs of a folder. */
export type SkeletonWorld = Pick<World, 'request' | 'info' | 'files' | 'skeletons'>;

/** Says what is at work. */
export interface Progress {
  begin(stage: string | null): void;
  tell(text: string): void;
  line(text: string): void;
  during<T>(stage: string, promise: Promise<T>): Promise<T>;
}

/** What reading a folder and asking the program needs of a command. */
export interface RunContext {
  cwd: string;
  environment: Record<string, string | undefined>;
  progress: Progress;
  isNewerNamed?: boolean;
  /** Whether a command is at work, which a signal of the system may end. */
  isCommand?: boolean;
  /** Ends the work early. */
  signal?: AbortSignal;
  /** Makes a call that reads files. */
  reading?<T>(call: () => T): T;
  /** Notes that another process reads a folder from a time on. */
  beside?(folder: string, begun: number): void;
}

export type AnalyseOptions = Options & { preview?: boolean; treesOf?: Set<string>; within?: { files: Set<string>; start?: number }; texts?: Map<string, string>; keepSourceFiles?: boolean; short?: boolean; members?: string[] };
