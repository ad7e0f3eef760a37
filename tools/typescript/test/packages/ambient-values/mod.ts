// Values that the compiler's checker refuses stay in skeletons as they are.
export declare namespace Sizes {
  const least: number = Math.min(1, 2);
  class Box {
    width: number = (1, 2);
  }
}
export interface Shape {
  draw({ color = (): string => "red" }: { color?: () => string }): void;
}
export type Draw = ({ width = (1, 2) }: { width?: number }) => void;
