export default function (a: First): void;
export default function (a: Second): void;
export default function (a: unknown): void {}
export default interface Third { fourth: Fourth }
interface First { a: 1 }
interface Second { a: 2 }
interface Fourth { a: 4 }
