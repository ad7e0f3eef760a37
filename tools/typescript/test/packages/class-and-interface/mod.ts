// Whoever reaches one of these classes by its value has the members of its interface too.
import { Other } from "./other.ts";
interface Events { open: Opened }
interface Opened { at: number }
class Emitter {}
interface Emitter { on(events: Events): this }
export class Server extends Emitter {}

class Asked {}
interface Asked { part: Part }
interface Part { a: 1 }
export const asked: typeof Asked = Asked;

class Made {}
interface Made { made: MadePart }
interface MadePart { a: 2 }
export const made = new Made();

export class Third extends Other {}
namespace Space { export class Inner {} export interface Inner { inner: InnerPart } }
interface InnerPart { a: 3 }
import Short = Space.Inner;
export class Fourth extends Short {}
class Plain {}
interface Plain { plain: PlainPart }
interface PlainPart { a: 4 }
import Alias = Plain;
export class Fifth extends Alias {}
