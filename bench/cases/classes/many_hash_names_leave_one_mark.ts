export class C { #x; #m() {} accessor #y; }
