export function request(): void {}
request["quoted"] = 1;
request[`template`] = "a";
request["delete"] = 1;
request["a-b"] = 1;
request["computed" + ""] = 1;
export namespace N {
  export function inner(): void {}
  inner.class = true;
}
