export module N { export const a = 1; }
