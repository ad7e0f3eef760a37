/** What an option is, as `--help` shows it. */
export interface Option {
  word: string;
  also?: string[];
  value?: string;
  key: keyof Options;
  isList?: boolean;
  commands: string[];
  /** Whether `--help` passes over it. */
  isHidden?: boolean;
  text: string;
}

/** The options of a command line, by their keys. */
export interface Options {
  name?: string;
  version?: string;
  exports?: string | Record<string, unknown>;
  format?: string;
  json?: boolean;
  maxWarnings?: number;
  allow?: string[];
  noIgnore?: boolean;
  baseline?: string;
  rules?: string;
  reader?: string;
  only?: boolean;
  fix?: boolean;
  watch?: boolean;
  externals?: boolean;
  verify?: boolean;
  noCache?: boolean;
  dry?: boolean;
  types?: boolean;
  markdown?: boolean;
  dts?: boolean;
  withDts?: boolean;
  unproved?: boolean;
  noOwnCompiler?: boolean;
  quiet?: boolean;
  plain?: boolean;
  help?: boolean;
  /** What is kept of sources, in memory and between runs. */
  kept?: import('../package/cache.js').Kept | null;
  /** Texts by their paths, in place of those of the files. */
  texts?: Map<string, string>;
}

/** What a command line asks for. */
export interface Asked {
  command: string;
  rest: string[];
  options: Options;
}

/** Where text is written. */
export interface Output {
  write(text: string): unknown;
  isTTY?: boolean;
  columns?: number;
}

/** Colours a text by a style, or leaves it as it is. */
export type Paint = (style: string, text: string) => string;

/** What a command line is run with. */
export interface Io {
  cwd: string;
  environment: Record<string, string | undefined>;
  out: Output;
  err: Output;
}

/** What a command works with. */
export interface Context extends Io {
  kept?: import('../package/cache.js').Kept | null;
  paint: Paint;
  paintErrors: Paint;
  progress: import('../program/types').Progress & { end(): void };
  begun: bigint;
  /** What stands for the seconds of this run. */
  clock?: string;
  reading?<T>(call: () => T): T;
  beside?(folder: string, begun: number): void;
  isNewerNamed?: boolean;
  isCommand?: boolean;
  signal?: AbortSignal;
  /** The same for a further round. */
  again(): Context;
}

/** A folder that is to be checked, and its entry points, where files name them. */
export interface Target {
  dir: string;
  exports?: string | Record<string, unknown>;
  /** The files whose messages are asked for, where not all are. */
  only?: Set<string>;
}

/** Why a folder cannot be read. */
export interface Refusal {
  messages: import('../messages/types').Message[];
  status: number;
  message: string;
}

/** What `check` says of a folder. */
export interface Result {
  dir: string;
  world: import('../program/types').World | null;
  thrown: Refusal | null;
  /** What was thrown. */
  error?: unknown;
  status: number;
  messages: import('../messages/types').Message[];
  singleReturns: number;
  allowed: number;
  known: number;
}

/** An error of a system call, of this tool, or one with a status. */
export interface KnownError extends Error {
  status?: number;
  syscall?: string;
  code?: string;
  messages?: import('../messages/types').Message[];
  module?: string;
}

/** A message as a thread is handed it, with the text of its lines. */
export type HandedMessage = Omit<import('../messages/types').Message, 'lines'> & { lines?: string };

/** What the last line of a check counts. */
export type Summed = Pick<Result, 'world' | 'messages' | 'allowed' | 'known'> & Partial<Result>;
