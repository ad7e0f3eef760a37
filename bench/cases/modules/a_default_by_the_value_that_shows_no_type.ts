export default f();
