export function run(): any {}
