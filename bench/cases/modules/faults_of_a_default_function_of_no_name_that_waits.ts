export default async function () { return f(); }
