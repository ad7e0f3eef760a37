export default (name: string): void => {};
