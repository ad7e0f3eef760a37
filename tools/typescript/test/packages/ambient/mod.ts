export declare const version: string;
export declare function load(name: string): Promise<unknown>;
export declare class Handle {
  private constructor();
  private secret: number;
  close(): void;
}
declare const hidden: number;
declare let reached: { a: number };
export type Reached = typeof reached;
