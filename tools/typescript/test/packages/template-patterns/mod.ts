// Templates within the brackets of patterns, which a look ahead passes.
export type Keyed = ({ [`a${1}`]: b }: Record<string, number>) => void;
export type Nested = ({ [`a${`b${"c"}`}`]: [d], ...rest }: Record<string, string[]>) => void;
export type Bracketed = ([{ [`a${{ b: "c" }.b}d${"e"}`]: f }]: [Record<string, number>]) => void;
export type Braced = new ({ [`}${"{"}`]: b }: Record<string, number>) => object;
