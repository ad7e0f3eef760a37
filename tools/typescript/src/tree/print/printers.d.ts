import * as forms from '../forms';
import { Writer } from './writer.js';

/** What has a place in a source, or may have. */
export interface Spanned {
  span?: forms.Span | null;
}

/** For each variant of a choice what prints it. */
export type Printers<V> = { [K in keyof V]: (w: Writer, node: V[K]) => void };

/** A parameter of a function or a function type: a pattern, which may have decorators. */
export type Parameter = (forms.Pat & { pat?: undefined }) | forms.Param;

/** A name in the braces of an import or an export. */
export type Named =
  | (forms.ImportNamedSpecifier & { orig?: undefined })
  | (forms.ExportNamedSpecifier & { local?: undefined, imported?: undefined });

/** What one file of the printer asks of another that stands on it. */
export interface Parts {
  block: typeof import('./statements.js').block;
  classOf: typeof import('./statements.js').classOf;
  decorators: typeof import('./expressions.js').decorators;
  expression: typeof import('./expressions.js').expression;
  propName: typeof import('./expressions.js').propName;
}
