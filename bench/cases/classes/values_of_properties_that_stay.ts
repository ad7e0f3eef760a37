export class C { a = z; b = { z }; c = f as () => void; }
