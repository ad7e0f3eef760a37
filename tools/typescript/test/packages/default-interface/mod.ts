export default interface Options extends Base {
  depth: number;
}
interface Base {
  a: number;
}
