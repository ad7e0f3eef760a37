export function* g();
