export default async () => { throw 1; };
