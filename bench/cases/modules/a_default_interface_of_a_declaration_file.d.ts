export default interface I { a: string; b: () => void; }
