import { Message } from '../messages/types';
import * as forms from '../tree/forms';

/** The text of a skeleton or a declaration file. */
export interface Printed {
  specifier: string;
  name: string;
  text: string;
  isPreview?: boolean;
}

/** A declaration of a name: the part of a tree that belongs to it, and its place. */
export interface Declared {
  name: string;
  node: forms.Part & { isParameter?: boolean };
  span: forms.Span;
}

/** Where something is declared: in a module by a name; null of the name for the whole module, and null of the module for what lies in another package. */
export type Target = [specifier: string | null, name: string | null];

/** A public name: its package, where it is exported, the module and the place of its declaration, and what it leads to, by `specifier\nname`. */
export interface PublicName {
  owner: string;
  at: { specifier: string; name: string };
  module: string;
  target: Target;
  closure: Map<string, string>;
  /** Whether it is exported as a type only, and stands for a value. */
  isTypeOnly: boolean;
}

/** From where a search comes to a declaration: from another one, or from an entry point that exports it by some names. */
export interface Step {
  from: string | null;
  entry?: string;
  as?: string;
}

/** A declaration that a search has found, with the step that leads to it. */
export interface Way extends Step {
  specifier: string;
  name: string;
}

/** What the holder of a value is: see `value-types.js`. */
export type Holder = 'constant' | 'wide' | 'frozen' | 'kept' | 'returned';

/** What a name stands for. */
export interface Found {
  form: 'other' | 'unknown' | 'module' | 'value' | 'typed' | 'member';
  specifier?: string;
  name?: string;
  /** The value of a constant, or the declaration. */
  value?: forms.Expr;
  scope?: import('./value-scopes.js').Scope;
  nodes?: forms.Part[];
  type?: forms.TsType;
  isMade?: boolean;
  isSaid?: boolean;
}

export type EnumScope = { find(value: forms.Expr): Found };

/** Gives a message its place. */
export type Placed = (span: forms.Span | null, message: Message) => Message;

/** A literal that is wider in the source: where the name of its constant stands. */
export interface FoundLiteral {
  span: forms.Span;
  lit: forms.TsLit;
  name: string;
}
