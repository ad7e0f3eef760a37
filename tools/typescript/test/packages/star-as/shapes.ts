export interface Circle {
  radius: number;
}
export default class Unseen {}
