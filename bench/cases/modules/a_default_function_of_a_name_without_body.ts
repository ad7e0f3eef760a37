export default function f(a: string): void;
