// @ts-ignore: what this comment covers stays on one line
import { aNameThatIsLong as first, anotherNameThatIsLong as second, aThirdNameThatIsLong as third } from "outside";
import { aNameThatIsLong as fourth, anotherNameThatIsLong as fifth, aThirdNameThatIsLong as sixth } from "outside";
// @ts-expect-error
export function wide(parameter: first.Missing, another: second.Missing, aThird: third.Missing, more: first.Missing2): void {}
export function broken(parameter: fourth, another: fifth, aThird: sixth, more: fourth, yetAnother: fifth): void {}
