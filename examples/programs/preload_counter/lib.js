let n = 0; export function inc() { n = n + 1; return n; }
