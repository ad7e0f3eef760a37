export default f() as T;
