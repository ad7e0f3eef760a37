import * as forms from './forms';
import { Offsets } from './offsets.js';

/** An error at a place of a text: the offset, and the program's position. */
export interface TreeError {
  offset: number;
  position: number;
  message: string;
}

/** What is wrong with a form that is read all the same. */
export interface TreeFault {
  offset: number;
  length: number;
  message: string;
}

/** The text of an import or an export, where it stands, and the comment before it. */
export interface TreeSource {
  text: string;
  offset: number;
  comment: string | null;
}

export interface Comment {
  kind: 'Line' | 'Block';
  span?: forms.Span;
  text: string;
}

/** Comments by the positions of the tokens before or behind which they stand. */
export interface Comments {
  leading: [position: number, comments: Comment[]][];
  trailing: [position: number, comments: Comment[]][];
}

/** The program's tree of a module. Without `program` there are errors. */
export interface Tree {
  program: forms.Program | null;
  comments: Comments;
  unresolvedContext?: number;
  topLevelContext?: number;
  offsets: Offsets;
  sources?: TreeSource[];
  errors: TreeError[];
  faults: TreeFault[];
}

export interface TreeOptions {
  short?: boolean;
  rules?: string;
}

/** The variant of a choice, and what it holds. */
export type Entry<C> = C extends unknown ? { [K in keyof C]-?: undefined extends C[K] ? never : [variant: K, content: C[K]] }[keyof C] : never;
