export default 1 + g();
