export default abstract class C { abstract m(): void; }
