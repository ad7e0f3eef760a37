// A function and an interface, both exported as default.
type Needed = 1;
type Asked = 2;
export default function make(needed: Needed): Options {
  return {};
}
export default interface Options {
  asked?: Asked;
}
