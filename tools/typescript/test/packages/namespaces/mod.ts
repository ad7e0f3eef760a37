export namespace Geometry {
  export const unit = 1;
  const hidden = 2;
  export interface Point {
    x: number;
  }
  export namespace Solid {
    export class Cube {
      side = 1;
    }
  }
  export function area(side: number): number {
    return side * hidden;
  }
}
export namespace One.Two {
  export type Three = string;
}
export declare namespace Ambient {
  let state: number;
  function call(): void;
}
namespace Unused {
  export const a = 1;
}
