export default async function f() { f(); }
