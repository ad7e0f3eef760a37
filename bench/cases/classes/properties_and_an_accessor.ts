export class S { accessor z = 1; x = [1]; static y = 1; }
