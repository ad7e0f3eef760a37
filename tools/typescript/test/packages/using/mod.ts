using handle = open();
export { handle };
function open(): Disposable {
  return {} as never;
}
export class Cell {
  accessor untyped = open();
}
