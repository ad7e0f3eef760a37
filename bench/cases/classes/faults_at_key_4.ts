export class C { [k]; [k] = f(); }
