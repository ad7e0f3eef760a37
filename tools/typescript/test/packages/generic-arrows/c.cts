export const same = <T,>(it: T): T => it;
export const both = <T, U>(it: T, other: U): [T, U] => [it, other];
export const bound = <T extends object>(it: T): T => it;
export const later = async <T,>(it: T): Promise<T> => it;
export class Maker { make = <T,>(it: T): T => it; }
export default <T,>(it: T): T => it;
export const table = { same: <T,>(it: T): T => it };
export const type: <T>(it: T) => T = (it) => it;
export function plain<T>(it: T): T { return it; }
export const fallback = <T = string,>(it: T): T => it;
