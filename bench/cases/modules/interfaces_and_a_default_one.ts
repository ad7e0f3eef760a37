export interface I { a: string; } interface J {} export default interface K {}
