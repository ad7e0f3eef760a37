export class C { 1; 1 = f(); }
