export class T { accessor #h = 1; }
