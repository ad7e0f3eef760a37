export class C { m; m = f(); }
