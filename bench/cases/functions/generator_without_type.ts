export function* g() {}
