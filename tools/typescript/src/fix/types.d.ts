import { Message } from '../messages/types';
import { Naming } from './naming.js';

/** A part of a text that is replaced. */
export interface Edit {
  start: number;
  end: number;
  text: string;
}

/** What a name is imported from: the text of the module, and its name there. */
export interface Imported {
  source: string;
  name: string | null;
}

/** The edits for one message, with the names that they import. */
export interface Made {
  key: string;
  file: ts.SourceFile;
  edits: Edit[];
  imports: Map<string, Imported>;
}

/** An error of the compiler: the file, the code, the place, and all of it as a text. */
export interface FoundError {
  name: string;
  code: number;
  start: number | undefined;
  text: string;
}

/** What the edits of a file are made of. */
export interface FileToEdit {
  program: ts.Program;
  file: ts.SourceFile;
  messages: Message[];
  naming: Naming;
  circles: Set<string>;
  rejected: Set<string>;
  notes: Map<string, string>;
}

/** Where a text of a file leads. */
export type Resolve = (text: string, from: string) => (ts.ResolvedModule & { extension: string }) | undefined;

/** A class that is a value, around a part of a type. */
export interface Around {
  declaration: ts.Node;
  isStatic: boolean;
}
