export default (n = 1) => n as number;
