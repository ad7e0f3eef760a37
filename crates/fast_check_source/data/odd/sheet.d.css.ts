declare const sheet: { name: string };
export default sheet;
