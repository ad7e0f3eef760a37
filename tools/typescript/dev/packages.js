'use strict';
// Packages of one module and of many, on which the tool is timed.
const fs = require('fs');
const path = require('path');

/** A module like those of a library: types, a class and functions with bodies, and imports of two others. */
function moduleText(/** @type {number} */ at, /** @type {number} */ count) {
  const [first, second] = [(at + 1) % count, (at * 7 + 3) % count];
  const body = (/** @type {string} */ name) => `  const made = new Map<string, number>();
  for (let each = 0; each < ${name}.length; each++) {
    const value = ${name}.charCodeAt(each) * ${at + 1};
    if (value % 2 === 0) made.set(${name}.slice(0, each), value);
    else made.set(\`\${each}:\${value}\`, made.size);
  }
  const sum = [...made.values()].reduce((all, it) => all + it, 0);
`;
  const method = (/** @type {number} */ each) => `
  /** What a name has at place ${each}. */
  step${each}(name: string, depth = ${each}): Shape${first} | undefined {
${body('name').replace(/^/gm, '  ')}    return sum > depth ? this.shapes.get(name) : undefined;
  }
`;
  const call = (/** @type {number} */ each) => `
/** Call ${each} of module ${at}. */
export function call${at}_${each}(text: string, options: Options${at} = { depth: ${each} }): Shape${at} {
${body('text')}  return { name: text, size: sum + hidden${at}(options.depth), next: null };
}
`;
  return `import type { Shape${first} } from "./m${first}";
import { Options${second} as Other } from "./m${second}";

/** The shape of module ${at}. */
export interface Shape${at} {
  readonly name: string;
  size: number;
  next: Shape${first} | null;
}
export interface Options${at} {
  depth: number;
  other?: Other;
}
function hidden${at}(depth: number): number {
${body('String(depth)')}  return sum;
}
/** The class of module ${at}. */
export class Group${at} {
  #count = 0;
  private shapes: Map<string, Shape${first}> = new Map();
  constructor(readonly options: Options${at}, private label: string = "m${at}") {
    this.#count = label.length;
  }
${[0, 1, 2, 3].map(method).join('')}}
${[0, 1, 2, 3, 4].map(call).join('')}`;
}

/** Writes a package of so many modules, all of which its entry point exports. */
function writePackage(/** @type {string} */ folder, /** @type {number} */ count) {
  fs.writeFileSync(path.join(folder, 'deno.json'), '{ "name": "@test/speed", "version": "1.0.0", "exports": "./mod.ts" }');
  const names = Array.from({ length: count }, (_, at) => at);
  for (const at of names) fs.writeFileSync(path.join(folder, `m${at}.ts`), moduleText(at, count));
  fs.writeFileSync(path.join(folder, 'mod.ts'), names.map((at) => `export * from "./m${at}";\n`).join(''));
}

module.exports = { writePackage };
