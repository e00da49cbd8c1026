export default function f() { return 1; }
