export class Account {
  private secret: Secret = new Secret();
  owner: string = "";
}
class Secret {
  word = "";
}
export type Word = Account["secret"];
export type Own = typeof Account.prototype.secret;
