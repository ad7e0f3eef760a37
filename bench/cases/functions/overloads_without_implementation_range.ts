export function o(x: string): void; export function o(x: any) {}
