export default (n: number) => n;
