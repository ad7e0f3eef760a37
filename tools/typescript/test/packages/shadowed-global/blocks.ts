export namespace N { export interface Promise<T> { it: T } }
export namespace N { export async function later() {} }
export async function outside() {}
