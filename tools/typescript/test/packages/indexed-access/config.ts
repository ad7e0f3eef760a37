export class Config {
  depth: Depth = 1;
  nested: { value: string } = { value: "" };
}
type Depth = 1 | 2;
export class Unused {}
