declare const items: string[];
if (items.length) { var a: number = 1; }
for (var i: number = 0; i < 1; i++) { var inner: boolean = true; }
try { var b: string = "x"; } catch { var c: { d: number } = { d: 1 }; }
switch (items.length) { case 1: var e: "e" = "e"; }
label: while (true) { var f: number = 1; break label; }
export { a, b, c, e, f, i, inner };
export namespace N {
  if (items.length) { var g: number = 1; }
  export const h: typeof g = 1;
}
// What a loop gives has no written type, and is no public name here.
for (var hidden of items) {}
function later(): void { if (items) { var notHere = 1; } }
