const settings = { depth: 1 };
export default settings;
