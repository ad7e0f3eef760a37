/** Where a message has its place: offsets in UTF-16 units in the text of `lines`. */
export interface Placement {
  lines: import('../tree/lines.js').Lines;
  start: number;
  end: number;
}

/** What is reported of a package, with its place where it has one. */
export type Message = MessageText & (Placement | { lines?: undefined; start?: undefined; end?: undefined });

/** A message that has a place. */
export type PlacedMessage = MessageText & Placement;

export interface MessageText {
  level: 'Error' | 'Warning';
  code: string;
  message: string;
  hint?: string | null;
  info?: string[];
  docs?: string | null;
  specifier?: string;
  file?: string;
  /** The package of a message about a workspace. */
  package?: string;
}

/** A message as other tools read it. Lines and columns begin at 1, and columns count characters. */
export type PlainMessage = import('../api/api').Message & { package?: string };
