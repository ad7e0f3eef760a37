export default a();
