// A note that goes.
/** A documented function. */
export function documented(/** inside */ a: number): void {
  /** in a body */
}
/* a plain block that goes */
export interface Documented {
  /** A member. */
  a: number; // behind a member
}
/** Of what goes. */
function hidden() {}
export class Commented {
  /** A property. */
  value = 1;
  /** A private method. */
  private work(): void {}
  // @ts-ignore a directive
  broken: Missing;
}
/** At the end. */
