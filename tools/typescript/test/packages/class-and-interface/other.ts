export class Other {}
export interface Other { other: OtherPart }
interface OtherPart { a: 5 }
interface Unasked { a: 6 }
