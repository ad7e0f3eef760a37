export interface Shown {
  name: string;
}
class Hidden {}
export { Hidden as Kept };
