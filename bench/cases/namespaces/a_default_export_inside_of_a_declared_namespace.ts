declare namespace N { export default f(); }
