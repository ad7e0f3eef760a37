export default (a) => f();
