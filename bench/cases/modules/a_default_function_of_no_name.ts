export default function (a: string, b = 1): string { return f(); }
