export const a = [/*a/, /*b/];
