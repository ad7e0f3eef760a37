export class C { private x = class { #y; }; }
