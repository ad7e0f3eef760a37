interface Hidden { a: 1 }
type Shown = { b: 2 };
const value: Shown = { b: 2 };
export default value;
export default interface Kind {
  hidden: Hidden;
}
