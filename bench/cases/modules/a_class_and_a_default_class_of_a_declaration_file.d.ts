export class C { x: number; } export default class D { x: number; }
