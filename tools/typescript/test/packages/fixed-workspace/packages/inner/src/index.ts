export interface Inner { depth: number }
export interface Other { depth: string }
export default class Core { inner: Inner = { depth: 1 }; }
