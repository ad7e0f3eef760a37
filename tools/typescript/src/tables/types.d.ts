// The tables of a module and the graph of modules, as docs/FORMATS.md has them.
import { Span } from '../tree/forms';

/** A name, and the number of the scope that binds it. */
export type Identifier = [name: string, scope: number];

export type Namespace = 'Value' | 'Type_' | 'Both';

export interface Dep {
  Id?: Identifier;
  QualifiedId?: [Identifier, string[]];
  ImportType?: [string, string[]];
}

export type Dependency = [dep: Dep, namespace: Namespace];

/** What a declaration is, by marks, and what its text refers to. */
export interface Flags {
  is_class?: boolean;
  is_member?: boolean;
  is_function?: boolean;
  is_ts_namespace?: boolean;
  is_default_class_expr?: boolean;
  is_plain_class_decl?: boolean;
  has_export_keyword?: boolean;
}

export interface Definition extends Flags {
  deps?: Dependency[];
}

export interface FileRef {
  specifier: string;
  name: 'Star' | { Name: string };
}

export interface Kind {
  Definition?: Definition | null;
  Target?: Identifier;
  QualifiedTarget?: [Identifier, string[]];
  FileRef?: FileRef;
}

/** Which namespaces a declaration binds its name in. */
export interface Binds {
  value?: boolean;
  type_?: boolean;
}

/** Marks of functions and methods. */
export interface BodyMarks {
  has_overloads?: boolean;
  has_body?: boolean;
}

export interface Declaration extends Binds, BodyMarks {
  range: Span;
  kind: Kind;
}

/** What a symbol has while the tables are made, and when they are finished. */
interface SymbolBase {
  id: number;
  parent_id?: number;
  is_private_member?: boolean;
  maybe_name?: string;
  qualified_name?: string;
}

export interface Symbol extends SymbolBase {
  exports?: [string, number][];
  members?: number[];
  decls?: Declaration[];
}

/** A symbol that is filled in. */
export interface GrowingSymbol extends SymbolBase {
  exports: Map<string, number>;
  members: number[];
  decls: Declaration[];
  ident?: Identifier;
  /** The enum that a symbol is a member of. */
  enum?: GrowingSymbol;
  /** What is exported as default without a name. */
  unnamed?: GrowingSymbol;
}

export interface ModuleTables {
  module_symbol: number;
  symbols: Symbol[];
  swc_ids?: [Identifier, number][];
  re_export_all_nodes?: [Span, string][];
  resolved_exports?: [string, string][];
}

/** The tables that a module has by itself. */
export type OwnTables = ModuleTables;

/** An identifier that binds a name. */
export interface Bound {
  sym: string;
  ctxt?: number;
}

/** A member of a class: its key, marks of its declaration, and what it refers to by a call. */
export interface ClassMember {
  node: import('../tree/forms').Part & { span: Span };
  key: import('../tree/forms').Part;
  marks: BodyMarks;
  follow(d: import('./dependencies.js').Dependencies): void;
}
