export function one() {
  return -1;
}
export async function later(): Promise<number> {
  return 1;
}
export async function hidden() {
  return await later();
}
export const arrow = () => {
  throw new Error("no");
};
export const async_arrow = async () => {
  throw new Error("no");
};
export class Reader {
  get line() {
    return String();
  }
  read() {
    return this.line;
  }
}
export function* each() {
  yield 1;
}
