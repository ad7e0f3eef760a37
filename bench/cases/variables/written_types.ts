export const a: string = "x"; export let b: number, c!: any;
