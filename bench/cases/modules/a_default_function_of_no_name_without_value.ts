export default function () { f(); }
