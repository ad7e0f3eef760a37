function o(x: string): void; function o(x) { return f(); }
