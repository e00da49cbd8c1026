export function line(id, n, v) { return `${id}:${String(n).padStart(2, "0")}=${v}`; }
