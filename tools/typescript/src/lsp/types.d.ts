/** A place in a document: a line and a number of UTF-16 units in it, both from 0. */
export interface Position {
  line: number;
  character: number;
}

export interface Range {
  start: Position;
  end: Position;
}

/** What an editor tells of a text: what stands in a range now, or all of it. */
export interface TextChange {
  range?: Range;
  text: string;
}

export interface TextEdit {
  range: Range;
  newText: string;
}

export interface Diagnostic {
  range: Range;
  severity: 1 | 2;
  code: string;
  source: string;
  message: string;
  codeDescription?: { href: string };
  relatedInformation?: { location: { uri: string; range: Range }; message: string }[];
}

export interface CodeAction {
  title: string;
  kind: string;
  isPreferred?: boolean;
  /** What `codeAction/resolve` needs: the document, and of one message its offset. */
  data?: { uri: string; start?: number; code?: string };
  edit?: { changes: Record<string, TextEdit[]> };
}

/** What of `initialize` is looked at. */
export interface InitializeParams {
  capabilities?: {
    textDocument?: { codeAction?: { resolveSupport?: { properties: string[] } } };
    workspace?: { didChangeWatchedFiles?: { dynamicRegistration?: boolean } };
  };
  workspaceFolders?: { uri: string }[] | null;
  rootUri?: string | null;
  initializationOptions?: Settings;
}

/** The settings of a client, under `nagdrez`. */
export interface Settings {
  /** Codes whose messages are left out. */
  allow?: string[];
  /** Report what deno_graph 0.111.1 reports. */
  rules?: string;
}

/** What a method of the protocol does. What it is handed may be anything. */
export type Handler = (params: any, signal: AbortSignal) => unknown;

/** A message of JSON-RPC. */
export interface RpcMessage {
  id?: number | string | null;
  method?: string;
  params?: unknown;
  result?: unknown;
  error?: { code: number; message: string };
}

/** What packages are checked with. */
export interface Host {
  /** The texts of open documents by their paths. */
  texts: Map<string, string>;
  settings: Settings;
  publish(dir: string, diagnostics: Map<string, Diagnostic[]>): void;
  log(text: string, type?: number): void;
}
