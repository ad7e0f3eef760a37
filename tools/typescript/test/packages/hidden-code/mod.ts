import { helper } from "./helper.ts";
import { Model } from "./model.ts";
export class Service {
  private model: Model = new Model();
  #cache = new Map<string, Model>();
  run(name: string): boolean {
    return helper(name, this.#cache);
  }
}
export const limit: number = helper.length;
