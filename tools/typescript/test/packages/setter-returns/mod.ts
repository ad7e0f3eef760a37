// What the body of a setter returns names no type.
export class Account {
  set owner(value: string) { return value as unknown as Hidden; }
}
class Hidden {
  word = String(1);
}
