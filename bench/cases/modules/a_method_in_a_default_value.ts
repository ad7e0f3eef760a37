export default { m() {} };
