export default function (a, { c }) { return f(); }
