export class A extends B { override override m(): void {} }
declare class B { m(): void; }
