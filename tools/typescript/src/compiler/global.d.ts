import typescript = require('typescript');

// What the compiler has for its own use, and forms that its types know from a later version on.
declare module 'typescript' {
  interface SourceFile {
    parseDiagnostics?: readonly DiagnosticWithLocation[];
    externalModuleIndicator?: Node | true;
    imports?: readonly StringLiteralLike[];
    locals?: Map<string, Symbol & { exportSymbol?: Symbol }>;
  }
  interface Identifier {
    symbol?: Symbol;
  }
  interface Type {
    intrinsicName?: string;
    objectFlags?: ObjectFlags;
    types?: Type[];
  }
  interface TypeChecker {
    resolveName?(name: string, location: Node, meaning: SymbolFlags, excludeGlobals: boolean): Symbol | undefined;
  }
  function skipTrivia(text: string, position: number): number;
  function getTokenPosOfNode(node: Node, sourceFile?: SourceFileLike, includeJsDoc?: boolean): number;
  function matchFiles(
    path: string, extensions: readonly string[] | undefined, excludes: readonly string[] | undefined, includes: readonly string[] | undefined,
    useCaseSensitiveFileNames: boolean, currentDirectory: string, depth: number | undefined,
    getFileSystemEntries: (path: string) => { readonly files: readonly string[]; readonly directories: readonly string[] }, realpath: (path: string) => string,
  ): string[];
  function isEntityNameExpression(node: Node): boolean;
  function isBindingPattern(node: Node): node is BindingPattern;
  function isIdentifierText(name: string, languageVersion: ScriptTarget | undefined): boolean;
}

// What the compiler has for its own use, and forms that its types know from a later version on.
declare module 'typescript' {
  function skipTrivia(text: string, position: number): number;
  function isIdentifierText(name: string, languageVersion: ScriptTarget | undefined): boolean;
}

declare global {
  /** The compiler's types, by which JSDoc names them; the compiler itself is the value `ts` of `typescript.js`. */
  export import ts = typescript;
}
