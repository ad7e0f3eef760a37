/** How a package is read. */
export interface Options {
  /** The package's name, version and entry points (a path, or a map of export names to paths), in place of those that its configuration says. */
  name?: string;
  version?: string;
  exports?: string | Record<string, unknown>;
  /** Whether trees of sources are kept between runs, in the cache folder of the user. They are where nothing is said. */
  cache?: boolean;
  /** Whether the compiler in the package's `node_modules` may be run, as it is where nothing is said. Pass `false` for packages of strangers. */
  ownCompiler?: boolean;
  /** The program that is run in place of the proved one of this package. */
  program?: string;
  /** Ends the call early: it is rejected with the signal's reason. */
  signal?: AbortSignal;
}

export interface CheckOptions extends Options {
  /** Codes whose messages are left out. */
  allow?: string[];
  /** Whether comments `fast-check-ignore` allow messages, as they do where nothing is said. Pass `false` for packages of strangers. */
  comments?: boolean;
  /** Report what deno_graph 0.111.1 reports. */
  rules?: "deno";
  /** Have TypeScript's compiler check the skeletons too. */
  verify?: boolean;
  /** Texts by absolute paths, in place of what the files hold. */
  texts?: Map<string, string>;
}

export interface SkeletonOptions extends Options {
  /** Declaration files in place of skeletons. */
  declarations?: boolean;
}

export interface FixOptions extends Options {
  /** Whether the files are written. They are not where nothing is said. */
  write?: boolean;
  /** Texts by absolute paths, in place of what the files hold. */
  texts?: Map<string, string>;
}

/** What is reported of a package. Lines and columns begin at 1, and columns count characters; a message without a place has none of them. */
export interface Message {
  level: "error" | "warning";
  code: string;
  message: string;
  /** The path from the package's folder. */
  file: string | null;
  line?: number;
  column?: number;
  endLine?: number;
  endColumn?: number;
  hint: string | null;
  info: string[];
  /** A page that explains the code. */
  docs: string | null;
}

export interface Package {
  name: string;
  version: string;
}

export interface CheckResult {
  /** 0 where there is nothing to report but warnings, 1 where there are errors, 2 where the folder or one of its packages cannot be read. */
  status: number;
  /** Why nothing of the folder can be read, beside the messages; else null. */
  reason: string | null;
  messages: Message[];
  /** The packages of the folder: one, or the members of a workspace. */
  packages: Package[];
}

/** A skeleton or a declaration file. */
export interface Module {
  /** The path from the package's folder. */
  path: string;
  text: string;
  /** Whether another module of the package has a message, so that this text is a preview. */
  isPreview: boolean;
}

export interface SkeletonResult extends CheckResult {
  modules: Module[];
}

export interface FixResult extends CheckResult {
  /** The files that change, by their absolute paths, and their new texts. */
  texts: Map<string, string>;
  /** How many types were written. */
  types: number;
}

/** A public name that is gone, new, or declared otherwise. */
export interface Change {
  name: string;
  /** The module that declares it. */
  module: string;
  change: "removed" | "added" | "changed";
  /** What the change asks of the version number, and why; neither where a package has messages. */
  advice?: "major" | "minor" | "patch";
  reason?: string;
}

export interface DiffResult {
  /** The part of the version number that has to change. `unknown` where more may differ than was compared, `preview` where a package has messages. */
  advice: "major" | "minor" | "patch" | "unknown" | "preview";
  reason: string;
  changes: Change[];
  /** What may differ and was not compared. */
  hidden: string[];
  notCompared: string[];
  /** What the versions of both packages are beside the advice. */
  versions: string[];
}

/** Reports the slow types of the package in a folder. */
export declare function check(dir: string, options?: CheckOptions): Promise<CheckResult>;

/** Answers the skeletons of the package's public modules, or their declaration files. */
export declare function skeleton(dir: string, options?: SkeletonOptions): Promise<SkeletonResult>;

/** Answers the sources with the types that messages ask for, as TypeScript's compiler infers them. */
export declare function fix(dir: string, options?: FixOptions): Promise<FixResult>;

/** Says what differs between two versions of a package for its users. It is rejected where one of them has messages in each public module. */
export declare function diff(oldDir: string, newDir: string, options?: Options): Promise<DiffResult>;

/** The version of this package. */
export declare const version: string;
