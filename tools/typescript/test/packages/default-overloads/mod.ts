export default function parse(a: First): void;
export default function parse(a: Second): void;
export default function parse(a: unknown): void {}
interface First { a: 1 }
interface Second { a: 2 }
