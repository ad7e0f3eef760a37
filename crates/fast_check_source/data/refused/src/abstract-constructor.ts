export abstract class A { abstract constructor(); }
