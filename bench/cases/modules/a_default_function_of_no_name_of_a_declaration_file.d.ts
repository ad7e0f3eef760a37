export default function (a) { return 1; }
