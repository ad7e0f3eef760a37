export default async function f() { return f(); }
