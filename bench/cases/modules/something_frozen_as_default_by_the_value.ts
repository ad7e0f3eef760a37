export default Object.freeze({ a });
