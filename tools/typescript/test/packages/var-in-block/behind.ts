if (1) { var first: number = 1; var second: number, third: string = ""; }
export { first, second, third };
export default first;
