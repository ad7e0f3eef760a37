// Written by forms/write.py from forms/forms.txt.

// JSDoc names these types as `forms.Ident`.
export as namespace forms;

/** A range: where it begins and ends, as swc's positions. */
export type Span = [start: number, end: number];

/** An object with one of the members. */
export type OneOf<V> = { [K in keyof V]: { [L in K]: V[K] } & { [L in Exclude<keyof V, K>]?: undefined } }[keyof V];

/** An identifier: `sym`. As a parameter that may be left out, `sym?`. */
export interface Ident {
  span: Span;
  ctxt?: number;
  sym: string;
  optional?: boolean;
}

/** A name that is not resolved, as `b` in `a.b`: `sym`. */
export interface IdentName {
  span: Span;
  sym: string;
}

/** An identifier as a pattern: `id: type_ann`. */
export interface BindingIdent {
  id: Ident;
  type_ann?: TsTypeAnn | null;
}

/** A hash name: `#name`. */
export interface PrivateName {
  span: Span;
  name: string;
}

/** A string: `"value"`. */
export interface Str {
  span: Span;
  value: string;
  raw?: string | null;
}

/** `true` or `false`. */
export interface Bool {
  span: Span;
  value?: boolean;
}

/** `null`. */
export interface Null {
  span: Span;
}

/** A number, as `1` or `0x10`. */
export interface Number {
  span: Span;
  raw: string;
}

/** A big integer, as `1n`. */
export interface BigInt {
  span: Span;
  raw: string;
}

/** A regular expression: `/exp/flags`. */
export interface Regex {
  span: Span;
  exp: string;
  flags: string;
}

/** The text between JSX tags. */
export interface JSXText {
  span: Span;
  raw: string;
}

/** A file with imports or exports: its items, after a line `#!shebang`. */
export interface Module {
  span: Span;
  body?: ModuleItem[];
  shebang?: string | null;
}

/** A file without imports and exports: its statements, after a line `#!shebang`. */
export interface Script {
  span: Span;
  body?: Stmt[];
  shebang?: string | null;
}

/** `import specifiers from src with with`. */
export interface ImportDecl {
  span: Span;
  specifiers?: ImportSpecifier[];
  src: Str;
  type_only?: boolean;
  with?: ObjectLit | null;
  phase: string;
}

/** `export decl`. */
export interface ExportDecl {
  span: Span;
  decl: Decl;
}

/** `export { specifiers } from src with with`. */
export interface NamedExport {
  span: Span;
  specifiers?: ExportSpecifier[];
  src?: Str | null;
  type_only?: boolean;
  with?: ObjectLit | null;
}

/** `export default decl`, of a class, a function or an interface. */
export interface ExportDefaultDecl {
  span: Span;
  decl: DefaultDecl;
}

/** `export default expr`. */
export interface ExportDefaultExpr {
  span: Span;
  expr: Expr;
}

/** `export * from src with with`. */
export interface ExportAll {
  span: Span;
  src: Str;
  type_only?: boolean;
  with?: ObjectLit | null;
}

/** `import id = module_ref`. */
export interface TsImportEqualsDecl {
  span: Span;
  is_export?: boolean;
  is_type_only?: boolean;
  id: Ident;
  module_ref: TsModuleRef;
}

/** `export = expr`. */
export interface TsExportAssignment {
  span: Span;
  expr: Expr;
}

/** `export as namespace id`. */
export interface TsNamespaceExportDecl {
  span: Span;
  id: Ident;
}

/** In the braces of an import: `imported as local`. */
export interface ImportNamedSpecifier {
  span: Span;
  local: Ident;
  imported?: ModuleExportName | null;
  is_type_only?: boolean;
}

/** `import local from ..`. */
export interface ImportDefaultSpecifier {
  span: Span;
  local: Ident;
}

/** `import * as local from ..`. */
export interface ImportStarAsSpecifier {
  span: Span;
  local: Ident;
}

/** `export * as name from ..`. */
export interface ExportNamespaceSpecifier {
  span: Span;
  name: ModuleExportName;
}

/** `export exported from ..`. */
export interface ExportDefaultSpecifier {
  exported: Ident;
}

/** In the braces of an export: `orig as exported`. */
export interface ExportNamedSpecifier {
  span: Span;
  orig: ModuleExportName;
  exported?: ModuleExportName | null;
  is_type_only?: boolean;
}

/** `require(expr)`, behind `import id =`. */
export interface TsExternalModuleRef {
  span: Span;
  expr: Str;
}

/** `{ stmts }`. */
export interface BlockStmt {
  span: Span;
  ctxt?: number;
  stmts?: Stmt[];
}

/** A lone `;`, as a statement or a member of a class. */
export interface EmptyStmt {
  span: Span;
}

/** `debugger;`. */
export interface DebuggerStmt {
  span: Span;
}

/** `with (obj) body`. */
export interface WithStmt {
  span: Span;
  obj: Expr;
  body: Stmt;
}

/** `return arg;`. */
export interface ReturnStmt {
  span: Span;
  arg?: Expr | null;
}

/** `label: body`. */
export interface LabeledStmt {
  span: Span;
  label: Ident;
  body: Stmt;
}

/** `break label;`. */
export interface BreakStmt {
  span: Span;
  label?: Ident | null;
}

/** `continue label;`. */
export interface ContinueStmt {
  span: Span;
  label?: Ident | null;
}

/** `if (test) cons else alt`. */
export interface IfStmt {
  span: Span;
  test: Expr;
  cons: Stmt;
  alt?: Stmt | null;
}

/** `switch (discriminant) { cases }`. */
export interface SwitchStmt {
  span: Span;
  discriminant: Expr;
  cases?: SwitchCase[];
}

/** `case test: cons`, or `default: cons` where there is no test. */
export interface SwitchCase {
  span: Span;
  test?: Expr | null;
  cons?: Stmt[];
}

/** `throw arg;`. */
export interface ThrowStmt {
  span: Span;
  arg: Expr;
}

/** `try block handler finally finalizer`. */
export interface TryStmt {
  span: Span;
  block: BlockStmt;
  handler?: CatchClause | null;
  finalizer?: BlockStmt | null;
}

/** `catch (param) body`. */
export interface CatchClause {
  span: Span;
  param?: Pat | null;
  body: BlockStmt;
}

/** `while (test) body`. */
export interface WhileStmt {
  span: Span;
  test: Expr;
  body: Stmt;
}

/** `do body while (test);`. */
export interface DoWhileStmt {
  span: Span;
  test: Expr;
  body: Stmt;
}

/** `for (init; test; update) body`. */
export interface ForStmt {
  span: Span;
  init?: VarDeclOrExpr | null;
  test?: Expr | null;
  update?: Expr | null;
  body: Stmt;
}

/** `for (left in right) body`. */
export interface ForInStmt {
  span: Span;
  left: ForHead;
  right: Expr;
  body: Stmt;
}

/** `for (left of right) body`. */
export interface ForOfStmt {
  span: Span;
  is_await?: boolean;
  left: ForHead;
  right: Expr;
  body: Stmt;
}

/** `expr;`. */
export interface ExprStmt {
  span: Span;
  expr: Expr;
}

/** `class ident ..`, with the rest in `class`. */
export interface ClassDecl {
  ident: Ident;
  declare?: boolean;
  class: Class;
}

/** `function ident ..`, with the rest in `function`. */
export interface FnDecl {
  ident: Ident;
  declare?: boolean;
  function: Function;
}

/** `kind decls;`, as `const a = 1;`. */
export interface VarDecl {
  span: Span;
  ctxt?: number;
  kind: VarDeclKind;
  declare?: boolean;
  decls?: VarDeclarator[];
}

/** `name = init`. */
export interface VarDeclarator {
  span: Span;
  name: Pat;
  init?: Expr | null;
  definite?: boolean;
}

/** `using decls;`. */
export interface UsingDecl {
  span: Span;
  is_await?: boolean;
  decls?: VarDeclarator[];
}

/** `interface id<type_params> extends extends body`. */
export interface TsInterfaceDecl {
  span: Span;
  id: Ident;
  declare?: boolean;
  type_params?: TsTypeParamDecl | null;
  extends?: TsExprWithTypeArgs[];
  body: TsInterfaceBody;
}

/** `expr<type_args>`, behind `extends` of an interface or `implements`. */
export interface TsExprWithTypeArgs {
  span: Span;
  expr: Expr;
  type_args?: TsTypeParamInstantiation | null;
}

/** `{ body }` of an interface. */
export interface TsInterfaceBody {
  span: Span;
  body?: TsTypeElement[];
}

/** `type id<type_params> = type_ann;`. */
export interface TsTypeAliasDecl {
  span: Span;
  declare?: boolean;
  id: Ident;
  type_params?: TsTypeParamDecl | null;
  type_ann: TsType;
}

/** `enum id { members }`. */
export interface TsEnumDecl {
  span: Span;
  declare?: boolean;
  is_const?: boolean;
  id: Ident;
  members?: TsEnumMember[];
}

/** In an enum: `id = init`. */
export interface TsEnumMember {
  span: Span;
  id: TsEnumMemberId;
  init?: Expr | null;
}

/** `module id body`, `namespace id body` or `global body`. */
export interface TsModuleDecl {
  span: Span;
  declare?: boolean;
  global?: boolean;
  namespace?: boolean;
  id: TsModuleName;
  body?: TsNamespaceBody | null;
}

/** `{ body }` of a module or namespace. */
export interface TsModuleBlock {
  span: Span;
  body?: ModuleItem[];
}

/** In `namespace a.b {}` what follows the first name: `id body`. */
export interface TsNamespaceDecl {
  span: Span;
  declare?: boolean;
  global?: boolean;
  id: Ident;
  body: TsNamespaceBody;
}

/** `this`. */
export interface ThisExpr {
  span: Span;
}

/** `[elems]`. */
export interface ArrayLit {
  span: Span;
  elems?: (ExprOrSpread | null)[];
}

/** `{ props }`. */
export interface ObjectLit {
  span: Span;
  props?: PropOrSpread[];
}

/** `function ident ..`, with the rest in `function`. */
export interface FnExpr {
  ident?: Ident | null;
  function: Function;
}

/** `op arg`, as `!a` or `typeof a`. */
export interface UnaryExpr {
  span: Span;
  op: string;
  arg: Expr;
}

/** `op arg` or `arg op`, as `++a` or `a--`. */
export interface UpdateExpr {
  span: Span;
  op: string;
  prefix?: boolean;
  arg: Expr;
}

/** `left op right`, as `a + b`. */
export interface BinExpr {
  span: Span;
  op: string;
  left: Expr;
  right: Expr;
}

/** `left op right`, as `a = b` or `a += b`. */
export interface AssignExpr {
  span: Span;
  op: string;
  left: AssignTarget;
  right: Expr;
}

/** `obj.prop`, `obj.#prop` or `obj[prop]`. */
export interface MemberExpr {
  span: Span;
  obj: Expr;
  prop: MemberProp;
}

/** `super.prop` or `super[prop]`. */
export interface SuperPropExpr {
  span: Span;
  prop: MemberProp;
}

/** `test ? cons : alt`. */
export interface CondExpr {
  span: Span;
  test: Expr;
  cons: Expr;
  alt: Expr;
}

/** `callee<type_args>(args)`. */
export interface CallExpr {
  span: Span;
  ctxt?: number;
  callee: Callee;
  args?: ExprOrSpread[];
  type_args?: TsTypeParamInstantiation | null;
}

/** `new callee<type_args>(args)`. */
export interface NewExpr {
  span: Span;
  ctxt?: number;
  callee: Expr;
  args?: ExprOrSpread[] | null;
  type_args?: TsTypeParamInstantiation | null;
}

/** Expressions with commas between them: `exprs`. */
export interface SeqExpr {
  span: Span;
  exprs?: Expr[];
}

/** A template, its substitutions `exprs` between its texts `quasis`. */
export interface Tpl {
  span: Span;
  exprs?: Expr[];
  quasis?: TplElement[];
}

/** A text of a template. */
export interface TplElement {
  span: Span;
  tail?: boolean;
  cooked?: string | null;
  raw: string;
}

/** A template behind a function: `tag<type_params>tpl`. */
export interface TaggedTpl {
  span: Span;
  ctxt?: number;
  tag: Expr;
  type_params?: TsTypeParamInstantiation | null;
  tpl: Tpl;
}

/** `<type_params>(params): return_type => body`. */
export interface ArrowExpr {
  span: Span;
  ctxt?: number;
  params?: Pat[];
  body: BlockStmtOrExpr;
  is_async?: boolean;
  is_generator?: boolean;
  type_params?: TsTypeParamDecl | null;
  return_type?: TsTypeAnn | null;
}

/** `class ident ..`, with the rest in `class`. */
export interface ClassExpr {
  ident?: Ident | null;
  class: Class;
}

/** `yield arg`. */
export interface YieldExpr {
  span: Span;
  arg?: Expr | null;
  delegate?: boolean;
}

/** `new.target` or `import.meta`. */
export interface MetaPropExpr {
  span: Span;
  kind: string;
}

/** `await arg`. */
export interface AwaitExpr {
  span: Span;
  arg: Expr;
}

/** `(expr)`. */
export interface ParenExpr {
  span: Span;
  expr: Expr;
}

/** `a.b` as the name of a JSX tag. */
export interface JSXMember {
  span: Span;
  raw: string;
}

/** `a:b` as a name in JSX. */
export interface JSXNamespacedName {
  span: Span;
  raw: string;
}

/** What stands between the braces of `{}` in JSX. */
export interface JSXEmpty {
  span: Span;
  raw: string;
}

/** `<a>..</a>` or `<a />`. */
export interface JSXElement {
  span: Span;
  raw: string;
}

/** `<>..</>`. */
export interface JSXFragment {
  span: Span;
  raw: string;
}

/** `<type_ann>expr`. */
export interface TsTypeAssertion {
  span: Span;
  expr: Expr;
  type_ann: TsType;
}

/** `expr as type_ann`. */
export interface TsAsExpr {
  span: Span;
  expr: Expr;
  type_ann: TsType;
}

/** `expr satisfies type_ann`. */
export interface TsSatisfiesExpr {
  span: Span;
  expr: Expr;
  type_ann: TsType;
}

/** `expr as const`. */
export interface TsConstAssertion {
  span: Span;
  expr: Expr;
}

/** `expr!`. */
export interface TsNonNullExpr {
  span: Span;
  expr: Expr;
}

/** `expr<type_args>`, with no call behind it. */
export interface TsInstantiation {
  span: Span;
  expr: Expr;
  type_args: TsTypeParamInstantiation;
}

/** `base` with a `?.` in it, as `a?.b` or `a?.b()`. */
export interface OptChainExpr {
  span: Span;
  optional?: boolean;
  base: OptChainBase;
}

/** What could not be read, as an expression or a pattern. */
export interface Invalid {
  span: Span;
}

/** A call in an optional chain: `callee?.<type_args>(args)`. */
export interface OptCall {
  span: Span;
  ctxt?: number;
  callee: Callee;
  args?: ExprOrSpread[];
  type_args?: TsTypeParamInstantiation | null;
}

/** `expr` or `...expr`, in an array or as an argument. */
export interface ExprOrSpread {
  spread?: Span | null;
  expr: Expr;
}

/** `...expr` in an object. */
export interface SpreadElement {
  dot3_token?: Span;
  expr: Expr;
}

/** `key: value`. */
export interface KeyValueProp {
  key: PropName;
  value: Expr;
}

/** `key = value`, which stands only in what is then read as a pattern. */
export interface AssignProp {
  span: Span;
  key: Ident;
  value: Expr;
}

/** `get key(): type_ann body`. */
export interface GetterProp {
  span: Span;
  key: PropName;
  type_ann?: TsTypeAnn | null;
  body?: BlockStmt | null;
}

/** `set key(param) body`. */
export interface SetterProp {
  span: Span;
  key: PropName;
  param: Pat;
  body?: BlockStmt | null;
}

/** `key(..) ..`, with the rest in `function`. */
export interface MethodProp {
  key: PropName;
  function: Function;
}

/** `[expr]`, as the name of a property. */
export interface ComputedPropName {
  span: Span;
  expr: Expr;
}

/** `super`, as what is called. */
export interface Super {
  span: Span;
}

/** `import`, as what is called. */
export interface Import {
  span: Span;
  phase: string;
}

/** `[elems]: type_ann`. */
export interface ArrayPat {
  span: Span;
  elems?: (Pat | null)[];
  optional?: boolean;
  type_ann?: TsTypeAnn | null;
}

/** `...arg: type_ann`. */
export interface RestPat {
  span: Span;
  dot3_token?: Span;
  arg: Pat;
  type_ann?: TsTypeAnn | null;
}

/** `{ props }: type_ann`. */
export interface ObjectPat {
  span: Span;
  props?: ObjectPatProp[];
  optional?: boolean;
  type_ann?: TsTypeAnn | null;
}

/** `left = right`. */
export interface AssignPat {
  span: Span;
  left: Pat;
  right: Expr;
}

/** `key: value` in an object pattern. */
export interface KeyValuePatProp {
  key: PropName;
  value: Pat;
}

/** `key = value` in an object pattern, or `key` alone. */
export interface AssignPatProp {
  span: Span;
  key: BindingIdent;
  value?: Expr | null;
}

/** `<type_params>(params): return_type body`, behind the name of a function or a method. */
export interface Function {
  span: Span;
  params?: Param[];
  decorators?: Decorator[];
  ctxt?: number;
  body?: BlockStmt | null;
  is_generator?: boolean;
  is_async?: boolean;
  type_params?: TsTypeParamDecl | null;
  return_type?: TsTypeAnn | null;
}

/** `decorators pat`. */
export interface Param {
  span: Span;
  decorators?: Decorator[];
  pat: Pat;
}

/** `<type_params> extends super_class<super_type_params> implements implements { body }`, behind the name of a class. */
export interface Class {
  span: Span;
  ctxt?: number;
  decorators?: Decorator[];
  body?: ClassMember[];
  super_class?: Expr | null;
  is_abstract?: boolean;
  type_params?: TsTypeParamDecl | null;
  super_type_params?: TsTypeParamInstantiation | null;
  implements?: TsExprWithTypeArgs[];
}

/** `@expr`. */
export interface Decorator {
  span: Span;
  expr: Expr;
}

/** `accessibility constructor(params) body`. */
export interface Constructor {
  span: Span;
  ctxt?: number;
  key: PropName;
  params?: ParamOrTsParamProp[];
  body?: BlockStmt | null;
  accessibility?: Accessibility | null;
  is_optional?: boolean;
}

/** `key(..) ..`, with the rest in `function`. */
export interface ClassMethod {
  span: Span;
  key: PropName;
  function: Function;
  kind: MethodKind;
  is_static?: boolean;
  accessibility?: Accessibility | null;
  is_abstract?: boolean;
  is_optional?: boolean;
  is_override?: boolean;
}

/** `#key(..) ..`, with the rest in `function`. */
export interface PrivateMethod {
  span: Span;
  key: PrivateName;
  function: Function;
  kind: MethodKind;
  is_static?: boolean;
  accessibility?: Accessibility | null;
  is_abstract?: boolean;
  is_optional?: boolean;
  is_override?: boolean;
}

/** `key: type_ann = value;`, behind its modifiers. */
export interface ClassProp {
  span: Span;
  key: PropName;
  value?: Expr | null;
  type_ann?: TsTypeAnn | null;
  is_static?: boolean;
  decorators?: Decorator[];
  accessibility?: Accessibility | null;
  is_abstract?: boolean;
  is_optional?: boolean;
  is_override?: boolean;
  readonly?: boolean;
  declare?: boolean;
  definite?: boolean;
}

/** `#key: type_ann = value;`, behind its modifiers. */
export interface PrivateProp {
  span: Span;
  ctxt?: number;
  key: PrivateName;
  value?: Expr | null;
  type_ann?: TsTypeAnn | null;
  is_static?: boolean;
  decorators?: Decorator[];
  accessibility?: Accessibility | null;
  is_optional?: boolean;
  is_override?: boolean;
  readonly?: boolean;
  definite?: boolean;
}

/** `[params]: type_ann`, in a class, an interface or a type literal. */
export interface TsIndexSignature {
  span: Span;
  params?: Pat[];
  type_ann?: TsTypeAnn | null;
  readonly?: boolean;
  is_static?: boolean;
}

/** `static body`. */
export interface StaticBlock {
  span: Span;
  body: BlockStmt;
}

/** `accessor key: type_ann = value;`, behind its modifiers. */
export interface AutoAccessor {
  span: Span;
  key: Key;
  value?: Expr | null;
  type_ann?: TsTypeAnn | null;
  is_static?: boolean;
  decorators?: Decorator[];
  accessibility?: Accessibility | null;
  is_abstract?: boolean;
  is_override?: boolean;
  definite?: boolean;
}

/** A parameter of a constructor that is a property too: `accessibility param`. */
export interface TsParamProp {
  span: Span;
  decorators?: Decorator[];
  accessibility?: Accessibility | null;
  is_override?: boolean;
  readonly?: boolean;
  param: TsParamPropParam;
}

/** A type that is a keyword, as `string`. */
export interface TsKeywordType {
  span: Span;
  kind: TsKeywordTypeKind;
}

/** `this` as a type. */
export interface TsThisType {
  span: Span;
}

/** `<type_params>(params) => type_ann`. */
export interface TsFnType {
  span: Span;
  params?: Pat[];
  type_params?: TsTypeParamDecl | null;
  type_ann: TsTypeAnn;
  is_abstract?: boolean;
}

/** `new <type_params>(params) => type_ann`. */
export interface TsConstructorType {
  span: Span;
  params?: Pat[];
  type_params?: TsTypeParamDecl | null;
  type_ann: TsTypeAnn;
  is_abstract?: boolean;
}

/** `type_name<type_params>`. */
export interface TsTypeRef {
  span: Span;
  type_name: TsEntityName;
  type_params?: TsTypeParamInstantiation | null;
}

/** `typeof expr_name<type_args>`. */
export interface TsTypeQuery {
  span: Span;
  expr_name: TsTypeQueryExpr;
  type_args?: TsTypeParamInstantiation | null;
}

/** `{ members }`. */
export interface TsTypeLit {
  span: Span;
  members?: TsTypeElement[];
}

/** `elem_type[]`. */
export interface TsArrayType {
  span: Span;
  elem_type: TsType;
}

/** `[elem_types]`. */
export interface TsTupleType {
  span: Span;
  elem_types?: TsTupleElement[];
}

/** In a tuple: `label: ty`, or `ty` alone. */
export interface TsTupleElement {
  span: Span;
  label?: Pat | null;
  ty: TsType;
}

/** In a tuple: `type_ann?`. */
export interface TsOptionalType {
  span: Span;
  type_ann: TsType;
}

/** In a tuple: `...type_ann`. */
export interface TsRestType {
  span: Span;
  type_ann: TsType;
}

/** `(type_ann)`. */
export interface TsParenthesizedType {
  span: Span;
  type_ann: TsType;
}

/** Types with `|` between them: `types`. */
export interface TsUnionType {
  span: Span;
  types?: TsType[];
}

/** Types with `&` between them: `types`. */
export interface TsIntersectionType {
  span: Span;
  types?: TsType[];
}

/** `check_type extends extends_type ? true_type : false_type`. */
export interface TsConditionalType {
  span: Span;
  check_type: TsType;
  extends_type: TsType;
  true_type: TsType;
  false_type: TsType;
}

/** `infer type_param`. */
export interface TsInferType {
  span: Span;
  type_param: TsTypeParam;
}

/** `op type_ann`, as `keyof a`. */
export interface TsTypeOperator {
  span: Span;
  op: TsTypeOperatorOp;
  type_ann: TsType;
}

/** `obj_type[index_type]`. */
export interface TsIndexedAccessType {
  span: Span;
  readonly?: boolean;
  obj_type: TsType;
  index_type: TsType;
}

/** `{ readonly [type_param as name_type]optional: type_ann }`. */
export interface TsMappedType {
  span: Span;
  readonly?: string | null;
  type_param: TsTypeParam;
  name_type?: TsType | null;
  optional?: string | null;
  type_ann?: TsType | null;
}

/** A literal as a type. */
export interface TsLitType {
  span: Span;
  lit: TsLit;
}

/** A template as a type, its substitutions `types` between its texts `quasis`. */
export interface TsTplLitType {
  span: Span;
  types?: TsType[];
  quasis?: TplElement[];
}

/** `asserts param_name is type_ann`. */
export interface TsTypePredicate {
  span: Span;
  asserts?: boolean;
  param_name: TsThisTypeOrIdent;
  type_ann?: TsTypeAnn | null;
}

/** `import(arg).qualifier<type_args>`. */
export interface TsImportType {
  span: Span;
  arg: Str;
  qualifier?: TsEntityName | null;
  type_args?: TsTypeParamInstantiation | null;
}

/** `left.right` as the name of a type. */
export interface TsQualifiedName {
  span: Span;
  left: TsEntityName;
  right: IdentName;
}

/** `<type_params>(params): type_ann`. */
export interface TsCallSignatureDecl {
  span: Span;
  params?: Pat[];
  type_ann?: TsTypeAnn | null;
  type_params?: TsTypeParamDecl | null;
}

/** `new <type_params>(params): type_ann`. */
export interface TsConstructSignatureDecl {
  span: Span;
  params?: Pat[];
  type_ann?: TsTypeAnn | null;
  type_params?: TsTypeParamDecl | null;
}

/** `key: type_ann`. */
export interface TsPropertySignature {
  span: Span;
  key: Expr;
  computed?: boolean;
  readonly?: boolean;
  optional?: boolean;
  type_ann?: TsTypeAnn | null;
}

/** `get key(): type_ann`. */
export interface TsGetterSignature {
  span: Span;
  key: Expr;
  computed?: boolean;
  type_ann?: TsTypeAnn | null;
}

/** `set key(params)`. */
export interface TsSetterSignature {
  span: Span;
  key: Expr;
  computed?: boolean;
  params?: Pat[];
}

/** `key<type_params>(params): type_ann`. */
export interface TsMethodSignature {
  span: Span;
  key: Expr;
  computed?: boolean;
  optional?: boolean;
  params?: Pat[];
  type_ann?: TsTypeAnn | null;
  type_params?: TsTypeParamDecl | null;
}

/** `name extends constraint = default`. */
export interface TsTypeParam {
  span: Span;
  name: Ident;
  is_in?: boolean;
  is_out?: boolean;
  is_const?: boolean;
  constraint?: TsType | null;
  default?: TsType | null;
}

/** `<params>`, where they are declared. */
export interface TsTypeParamDecl {
  span: Span;
  params?: TsTypeParam[];
}

/** `<params>`, as arguments. */
export interface TsTypeParamInstantiation {
  span: Span;
  params?: TsType[];
}

/** `: type_ann`. */
export interface TsTypeAnn {
  span: Span;
  type_ann: TsType;
}

export interface LitVariants {
  Str: Str;
  Bool: Bool;
  Null: Null;
  Num: Number;
  BigInt: BigInt;
  Regex: Regex;
  JSXText: JSXText;
}
export type Lit = OneOf<LitVariants>;

export interface ProgramVariants {
  Module: Module;
  Script: Script;
}
export type Program = OneOf<ProgramVariants>;

export interface ModuleItemVariants {
  ModuleDecl: ModuleDecl;
  Stmt: Stmt;
}
export type ModuleItem = OneOf<ModuleItemVariants>;

export interface ModuleDeclVariants {
  Import: ImportDecl;
  ExportDecl: ExportDecl;
  ExportNamed: NamedExport;
  ExportDefaultDecl: ExportDefaultDecl;
  ExportDefaultExpr: ExportDefaultExpr;
  ExportAll: ExportAll;
  TsImportEquals: TsImportEqualsDecl;
  TsExportAssignment: TsExportAssignment;
  TsNamespaceExport: TsNamespaceExportDecl;
}
export type ModuleDecl = OneOf<ModuleDeclVariants>;

export interface ImportSpecifierVariants {
  Named: ImportNamedSpecifier;
  Default: ImportDefaultSpecifier;
  Namespace: ImportStarAsSpecifier;
}
export type ImportSpecifier = OneOf<ImportSpecifierVariants>;

export interface ExportSpecifierVariants {
  Namespace: ExportNamespaceSpecifier;
  Default: ExportDefaultSpecifier;
  Named: ExportNamedSpecifier;
}
export type ExportSpecifier = OneOf<ExportSpecifierVariants>;

export interface ModuleExportNameVariants {
  Ident: Ident;
  Str: Str;
}
export type ModuleExportName = OneOf<ModuleExportNameVariants>;

export interface DefaultDeclVariants {
  Class: ClassExpr;
  Fn: FnExpr;
  TsInterfaceDecl: TsInterfaceDecl;
}
export type DefaultDecl = OneOf<DefaultDeclVariants>;

export interface TsModuleRefVariants {
  TsEntityName: TsEntityName;
  TsExternalModuleRef: TsExternalModuleRef;
}
export type TsModuleRef = OneOf<TsModuleRefVariants>;

export interface StmtVariants {
  Block: BlockStmt;
  Empty: EmptyStmt;
  Debugger: DebuggerStmt;
  With: WithStmt;
  Return: ReturnStmt;
  Labeled: LabeledStmt;
  Break: BreakStmt;
  Continue: ContinueStmt;
  If: IfStmt;
  Switch: SwitchStmt;
  Throw: ThrowStmt;
  Try: TryStmt;
  While: WhileStmt;
  DoWhile: DoWhileStmt;
  For: ForStmt;
  ForIn: ForInStmt;
  ForOf: ForOfStmt;
  Decl: Decl;
  Expr: ExprStmt;
}
export type Stmt = OneOf<StmtVariants>;

export interface VarDeclOrExprVariants {
  VarDecl: VarDecl;
  Expr: Expr;
}
export type VarDeclOrExpr = OneOf<VarDeclOrExprVariants>;

export interface ForHeadVariants {
  VarDecl: VarDecl;
  UsingDecl: UsingDecl;
  Pat: Pat;
}
export type ForHead = OneOf<ForHeadVariants>;

export interface DeclVariants {
  Class: ClassDecl;
  Fn: FnDecl;
  Var: VarDecl;
  Using: UsingDecl;
  TsInterface: TsInterfaceDecl;
  TsTypeAlias: TsTypeAliasDecl;
  TsEnum: TsEnumDecl;
  TsModule: TsModuleDecl;
}
export type Decl = OneOf<DeclVariants>;

export interface TsEnumMemberIdVariants {
  Ident: Ident;
  Str: Str;
}
export type TsEnumMemberId = OneOf<TsEnumMemberIdVariants>;

export interface TsModuleNameVariants {
  Ident: Ident;
  Str: Str;
}
export type TsModuleName = OneOf<TsModuleNameVariants>;

export interface TsNamespaceBodyVariants {
  TsModuleBlock: TsModuleBlock;
  TsNamespaceDecl: TsNamespaceDecl;
}
export type TsNamespaceBody = OneOf<TsNamespaceBodyVariants>;

export interface ExprVariants {
  This: ThisExpr;
  Array: ArrayLit;
  Object: ObjectLit;
  Fn: FnExpr;
  Unary: UnaryExpr;
  Update: UpdateExpr;
  Bin: BinExpr;
  Assign: AssignExpr;
  Member: MemberExpr;
  SuperProp: SuperPropExpr;
  Cond: CondExpr;
  Call: CallExpr;
  New: NewExpr;
  Seq: SeqExpr;
  Ident: Ident;
  Lit: Lit;
  Tpl: Tpl;
  TaggedTpl: TaggedTpl;
  Arrow: ArrowExpr;
  Class: ClassExpr;
  Yield: YieldExpr;
  MetaProp: MetaPropExpr;
  Await: AwaitExpr;
  Paren: ParenExpr;
  JSXMember: JSXMember;
  JSXNamespacedName: JSXNamespacedName;
  JSXEmpty: JSXEmpty;
  JSXElement: JSXElement;
  JSXFragment: JSXFragment;
  TsTypeAssertion: TsTypeAssertion;
  TsConstAssertion: TsConstAssertion;
  TsNonNull: TsNonNullExpr;
  TsAs: TsAsExpr;
  TsInstantiation: TsInstantiation;
  TsSatisfies: TsSatisfiesExpr;
  PrivateName: PrivateName;
  OptChain: OptChainExpr;
  Invalid: Invalid;
}
export type Expr = OneOf<ExprVariants>;

export interface BlockStmtOrExprVariants {
  BlockStmt: BlockStmt;
  Expr: Expr;
}
export type BlockStmtOrExpr = OneOf<BlockStmtOrExprVariants>;

export interface OptChainBaseVariants {
  Member: MemberExpr;
  Call: OptCall;
}
export type OptChainBase = OneOf<OptChainBaseVariants>;

export interface PropOrSpreadVariants {
  Spread: SpreadElement;
  Prop: Prop;
}
export type PropOrSpread = OneOf<PropOrSpreadVariants>;

export interface PropVariants {
  Shorthand: Ident;
  KeyValue: KeyValueProp;
  Assign: AssignProp;
  Getter: GetterProp;
  Setter: SetterProp;
  Method: MethodProp;
}
export type Prop = OneOf<PropVariants>;

export interface PropNameVariants {
  Ident: IdentName;
  Str: Str;
  Num: Number;
  Computed: ComputedPropName;
  BigInt: BigInt;
}
export type PropName = OneOf<PropNameVariants>;

export interface MemberPropVariants {
  Ident: IdentName;
  PrivateName: PrivateName;
  Computed: ComputedPropName;
}
export type MemberProp = OneOf<MemberPropVariants>;

export interface CalleeVariants {
  Super: Super;
  Import: Import;
  Expr: Expr;
}
export type Callee = OneOf<CalleeVariants>;

export interface AssignTargetVariants {
  Simple: Expr;
  Pat: Pat;
}
export type AssignTarget = OneOf<AssignTargetVariants>;

export interface PatVariants {
  Ident: BindingIdent;
  Array: ArrayPat;
  Rest: RestPat;
  Object: ObjectPat;
  Assign: AssignPat;
  Invalid: Invalid;
  Expr: Expr;
}
export type Pat = OneOf<PatVariants>;

export interface ObjectPatPropVariants {
  KeyValue: KeyValuePatProp;
  Assign: AssignPatProp;
  Rest: RestPat;
}
export type ObjectPatProp = OneOf<ObjectPatPropVariants>;

export interface ClassMemberVariants {
  Constructor: Constructor;
  Method: ClassMethod;
  PrivateMethod: PrivateMethod;
  ClassProp: ClassProp;
  PrivateProp: PrivateProp;
  TsIndexSignature: TsIndexSignature;
  Empty: EmptyStmt;
  StaticBlock: StaticBlock;
  AutoAccessor: AutoAccessor;
}
export type ClassMember = OneOf<ClassMemberVariants>;

export interface KeyVariants {
  Private: PrivateName;
  Public: PropName;
}
export type Key = OneOf<KeyVariants>;

export interface ParamOrTsParamPropVariants {
  Param: Param;
  TsParamProp: TsParamProp;
}
export type ParamOrTsParamProp = OneOf<ParamOrTsParamPropVariants>;

export interface TsParamPropParamVariants {
  Ident: BindingIdent;
  Assign: AssignPat;
}
export type TsParamPropParam = OneOf<TsParamPropParamVariants>;

export interface TsTypeVariants {
  TsKeywordType: TsKeywordType;
  TsThisType: TsThisType;
  TsFnOrConstructorType: TsFnOrConstructorType;
  TsTypeRef: TsTypeRef;
  TsTypeQuery: TsTypeQuery;
  TsTypeLit: TsTypeLit;
  TsArrayType: TsArrayType;
  TsTupleType: TsTupleType;
  TsOptionalType: TsOptionalType;
  TsRestType: TsRestType;
  TsUnionOrIntersectionType: TsUnionOrIntersectionType;
  TsConditionalType: TsConditionalType;
  TsInferType: TsInferType;
  TsParenthesizedType: TsParenthesizedType;
  TsTypeOperator: TsTypeOperator;
  TsIndexedAccessType: TsIndexedAccessType;
  TsMappedType: TsMappedType;
  TsLitType: TsLitType;
  TsTypePredicate: TsTypePredicate;
  TsImportType: TsImportType;
}
export type TsType = OneOf<TsTypeVariants>;

export interface TsFnOrConstructorTypeVariants {
  TsFnType: TsFnType;
  TsConstructorType: TsConstructorType;
}
export type TsFnOrConstructorType = OneOf<TsFnOrConstructorTypeVariants>;

export interface TsTypeQueryExprVariants {
  TsEntityName: TsEntityName;
  Import: TsImportType;
}
export type TsTypeQueryExpr = OneOf<TsTypeQueryExprVariants>;

export interface TsUnionOrIntersectionTypeVariants {
  TsUnionType: TsUnionType;
  TsIntersectionType: TsIntersectionType;
}
export type TsUnionOrIntersectionType = OneOf<TsUnionOrIntersectionTypeVariants>;

export interface TsLitVariants {
  Number: Number;
  Str: Str;
  Bool: Bool;
  BigInt: BigInt;
  Tpl: TsTplLitType;
}
export type TsLit = OneOf<TsLitVariants>;

export interface TsThisTypeOrIdentVariants {
  TsThisType: TsThisType;
  Ident: Ident;
}
export type TsThisTypeOrIdent = OneOf<TsThisTypeOrIdentVariants>;

export interface TsEntityNameVariants {
  TsQualifiedName: TsQualifiedName;
  Ident: Ident;
}
export type TsEntityName = OneOf<TsEntityNameVariants>;

export interface TsTypeElementVariants {
  TsCallSignatureDecl: TsCallSignatureDecl;
  TsConstructSignatureDecl: TsConstructSignatureDecl;
  TsPropertySignature: TsPropertySignature;
  TsGetterSignature: TsGetterSignature;
  TsSetterSignature: TsSetterSignature;
  TsMethodSignature: TsMethodSignature;
  TsIndexSignature: TsIndexSignature;
}
export type TsTypeElement = OneOf<TsTypeElementVariants>;

/** Any part of a tree, of which nothing more is known: each has some of these members. */
export type Part = {
  Array?: ArrayLit | ArrayPat;
  Arrow?: ArrowExpr;
  Assign?: AssignExpr | AssignProp | AssignPat | AssignPatProp;
  AutoAccessor?: AutoAccessor;
  Await?: AwaitExpr;
  BigInt?: BigInt;
  Bin?: BinExpr;
  Block?: BlockStmt;
  BlockStmt?: BlockStmt;
  Bool?: Bool;
  Break?: BreakStmt;
  Call?: CallExpr | OptCall;
  Class?: ClassExpr | ClassDecl;
  ClassProp?: ClassProp;
  Computed?: ComputedPropName;
  Cond?: CondExpr;
  Constructor?: Constructor;
  Continue?: ContinueStmt;
  Debugger?: DebuggerStmt;
  Decl?: Decl;
  Default?: ImportDefaultSpecifier | ExportDefaultSpecifier;
  DoWhile?: DoWhileStmt;
  Empty?: EmptyStmt;
  ExportAll?: ExportAll;
  ExportDecl?: ExportDecl;
  ExportDefaultDecl?: ExportDefaultDecl;
  ExportDefaultExpr?: ExportDefaultExpr;
  ExportNamed?: NamedExport;
  Expr?: ExprStmt | Expr;
  Fn?: FnExpr | FnDecl;
  For?: ForStmt;
  ForIn?: ForInStmt;
  ForOf?: ForOfStmt;
  Getter?: GetterProp;
  Ident?: Ident | IdentName | BindingIdent;
  If?: IfStmt;
  Import?: ImportDecl | Import | TsImportType;
  Invalid?: Invalid;
  JSXElement?: JSXElement;
  JSXEmpty?: JSXEmpty;
  JSXFragment?: JSXFragment;
  JSXMember?: JSXMember;
  JSXNamespacedName?: JSXNamespacedName;
  JSXText?: JSXText;
  KeyValue?: KeyValueProp | KeyValuePatProp;
  Labeled?: LabeledStmt;
  Lit?: Lit;
  Member?: MemberExpr;
  MetaProp?: MetaPropExpr;
  Method?: MethodProp | ClassMethod;
  Module?: Module;
  ModuleDecl?: ModuleDecl;
  Named?: ImportNamedSpecifier | ExportNamedSpecifier;
  Namespace?: ImportStarAsSpecifier | ExportNamespaceSpecifier;
  New?: NewExpr;
  Null?: Null;
  Num?: Number;
  Number?: Number;
  Object?: ObjectLit | ObjectPat;
  OptChain?: OptChainExpr;
  Param?: Param;
  Paren?: ParenExpr;
  Pat?: Pat;
  Private?: PrivateName;
  PrivateMethod?: PrivateMethod;
  PrivateName?: PrivateName;
  PrivateProp?: PrivateProp;
  Prop?: Prop;
  Public?: PropName;
  Regex?: Regex;
  Rest?: RestPat;
  Return?: ReturnStmt;
  Script?: Script;
  Seq?: SeqExpr;
  Setter?: SetterProp;
  Shorthand?: Ident;
  Simple?: Expr;
  Spread?: SpreadElement;
  StaticBlock?: StaticBlock;
  Stmt?: Stmt;
  Str?: Str;
  Super?: Super;
  SuperProp?: SuperPropExpr;
  Switch?: SwitchStmt;
  TaggedTpl?: TaggedTpl;
  This?: ThisExpr;
  Throw?: ThrowStmt;
  Tpl?: Tpl | TsTplLitType;
  Try?: TryStmt;
  TsArrayType?: TsArrayType;
  TsAs?: TsAsExpr;
  TsCallSignatureDecl?: TsCallSignatureDecl;
  TsConditionalType?: TsConditionalType;
  TsConstAssertion?: TsConstAssertion;
  TsConstructSignatureDecl?: TsConstructSignatureDecl;
  TsConstructorType?: TsConstructorType;
  TsEntityName?: TsEntityName;
  TsEnum?: TsEnumDecl;
  TsExportAssignment?: TsExportAssignment;
  TsExternalModuleRef?: TsExternalModuleRef;
  TsFnOrConstructorType?: TsFnOrConstructorType;
  TsFnType?: TsFnType;
  TsGetterSignature?: TsGetterSignature;
  TsImportEquals?: TsImportEqualsDecl;
  TsImportType?: TsImportType;
  TsIndexSignature?: TsIndexSignature;
  TsIndexedAccessType?: TsIndexedAccessType;
  TsInferType?: TsInferType;
  TsInstantiation?: TsInstantiation;
  TsInterface?: TsInterfaceDecl;
  TsInterfaceDecl?: TsInterfaceDecl;
  TsIntersectionType?: TsIntersectionType;
  TsKeywordType?: TsKeywordType;
  TsLitType?: TsLitType;
  TsMappedType?: TsMappedType;
  TsMethodSignature?: TsMethodSignature;
  TsModule?: TsModuleDecl;
  TsModuleBlock?: TsModuleBlock;
  TsNamespaceDecl?: TsNamespaceDecl;
  TsNamespaceExport?: TsNamespaceExportDecl;
  TsNonNull?: TsNonNullExpr;
  TsOptionalType?: TsOptionalType;
  TsParamProp?: TsParamProp;
  TsParenthesizedType?: TsParenthesizedType;
  TsPropertySignature?: TsPropertySignature;
  TsQualifiedName?: TsQualifiedName;
  TsRestType?: TsRestType;
  TsSatisfies?: TsSatisfiesExpr;
  TsSetterSignature?: TsSetterSignature;
  TsThisType?: TsThisType;
  TsTupleType?: TsTupleType;
  TsTypeAlias?: TsTypeAliasDecl;
  TsTypeAssertion?: TsTypeAssertion;
  TsTypeLit?: TsTypeLit;
  TsTypeOperator?: TsTypeOperator;
  TsTypePredicate?: TsTypePredicate;
  TsTypeQuery?: TsTypeQuery;
  TsTypeRef?: TsTypeRef;
  TsUnionOrIntersectionType?: TsUnionOrIntersectionType;
  TsUnionType?: TsUnionType;
  Unary?: UnaryExpr;
  Update?: UpdateExpr;
  Using?: UsingDecl;
  UsingDecl?: UsingDecl;
  Var?: VarDecl;
  VarDecl?: VarDecl;
  While?: WhileStmt;
  With?: WithStmt;
  Yield?: YieldExpr;
  accessibility?: Accessibility | null;
  alt?: Stmt | null | Expr;
  arg?: Expr | null | Expr | Pat | Str;
  args?: ExprOrSpread[] | ExprOrSpread[] | null;
  asserts?: boolean;
  base?: OptChainBase;
  block?: BlockStmt;
  body?: ModuleItem[] | Stmt[] | Stmt | BlockStmt | TsInterfaceBody | TsTypeElement[] | TsNamespaceBody | null | TsNamespaceBody | BlockStmtOrExpr | BlockStmt | null | ClassMember[];
  callee?: Callee | Expr;
  cases?: SwitchCase[];
  check_type?: TsType;
  class?: Class;
  computed?: boolean;
  cons?: Stmt | Stmt[] | Expr;
  constraint?: TsType | null;
  cooked?: string | null;
  ctxt?: number;
  decl?: Decl | DefaultDecl;
  declare?: boolean;
  decls?: VarDeclarator[];
  decorators?: Decorator[];
  default?: TsType | null;
  definite?: boolean;
  delegate?: boolean;
  discriminant?: Expr;
  dot3_token?: Span;
  elem_type?: TsType;
  elem_types?: TsTupleElement[];
  elems?: (ExprOrSpread | null)[] | (Pat | null)[];
  exp?: string;
  exported?: Ident | ModuleExportName | null;
  expr?: Expr | Str;
  expr_name?: TsTypeQueryExpr;
  exprs?: Expr[];
  extends?: TsExprWithTypeArgs[];
  extends_type?: TsType;
  false_type?: TsType;
  finalizer?: BlockStmt | null;
  flags?: string;
  function?: Function;
  global?: boolean;
  handler?: CatchClause | null;
  id?: Ident | TsEnumMemberId | TsModuleName;
  ident?: Ident | Ident | null;
  implements?: TsExprWithTypeArgs[];
  imported?: ModuleExportName | null;
  index_type?: TsType;
  init?: VarDeclOrExpr | null | Expr | null;
  is_abstract?: boolean;
  is_async?: boolean;
  is_await?: boolean;
  is_const?: boolean;
  is_export?: boolean;
  is_generator?: boolean;
  is_in?: boolean;
  is_optional?: boolean;
  is_out?: boolean;
  is_override?: boolean;
  is_static?: boolean;
  is_type_only?: boolean;
  key?: PropName | Ident | BindingIdent | PrivateName | Key | Expr;
  kind?: VarDeclKind | string | MethodKind | TsKeywordTypeKind;
  label?: Ident | Ident | null | Pat | null;
  left?: ForHead | Expr | AssignTarget | Pat | TsEntityName;
  lit?: TsLit;
  local?: Ident;
  members?: TsEnumMember[] | TsTypeElement[];
  module_ref?: TsModuleRef;
  name?: string | ModuleExportName | Pat | Ident;
  name_type?: TsType | null;
  namespace?: boolean;
  obj?: Expr;
  obj_type?: TsType;
  op?: string | TsTypeOperatorOp;
  optional?: boolean | string | null;
  orig?: ModuleExportName;
  param?: Pat | null | Pat | TsParamPropParam;
  param_name?: TsThisTypeOrIdent;
  params?: Pat[] | Param[] | ParamOrTsParamProp[] | TsTypeParam[] | TsType[];
  pat?: Pat;
  phase?: string;
  prefix?: boolean;
  prop?: MemberProp;
  props?: PropOrSpread[] | ObjectPatProp[];
  qualifier?: TsEntityName | null;
  quasis?: TplElement[];
  raw?: string | null | string;
  readonly?: boolean | string | null;
  return_type?: TsTypeAnn | null;
  right?: Expr | IdentName;
  shebang?: string | null;
  span?: Span;
  specifiers?: ImportSpecifier[] | ExportSpecifier[];
  spread?: Span | null;
  src?: Str | Str | null;
  stmts?: Stmt[];
  super_class?: Expr | null;
  super_type_params?: TsTypeParamInstantiation | null;
  sym?: string;
  tag?: Expr;
  tail?: boolean;
  test?: Expr | Expr | null;
  tpl?: Tpl;
  true_type?: TsType;
  ty?: TsType;
  type_ann?: TsTypeAnn | null | TsType | TsTypeAnn | TsType | null;
  type_args?: TsTypeParamInstantiation | null | TsTypeParamInstantiation;
  type_name?: TsEntityName;
  type_only?: boolean;
  type_param?: TsTypeParam;
  type_params?: TsTypeParamDecl | null | TsTypeParamInstantiation | null;
  types?: TsType[];
  update?: Expr | null;
  value?: string | boolean | Expr | Pat | Expr | null;
  with?: ObjectLit | null;
};

export type VarDeclKind = 'Var' | 'Let' | 'Const';
export type MethodKind = 'Method' | 'Getter' | 'Setter';
export type Accessibility = 'Public' | 'Protected' | 'Private';
export type TsKeywordTypeKind = 'TsAnyKeyword' | 'TsUnknownKeyword' | 'TsNumberKeyword' | 'TsObjectKeyword' | 'TsBooleanKeyword' | 'TsBigIntKeyword' | 'TsStringKeyword' | 'TsSymbolKeyword' | 'TsVoidKeyword' | 'TsUndefinedKeyword' | 'TsNullKeyword' | 'TsNeverKeyword' | 'TsIntrinsicKeyword';
export type TsTypeOperatorOp = 'KeyOf' | 'Unique' | 'ReadOnly';
