// The name of a tag is the same with blanks in it or without.
export const before: unknown = <a . b>c</a.b>;
export const behind: unknown = <a.b>c</ a . b >;
export const lines: unknown = <a.
  b>c</a
  .b>;
export const dashes: unknown = <a-b>c</a-b>;
export const nested: unknown = <a.b><c . d>e</c.d></a.b>;
