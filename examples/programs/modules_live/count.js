export let n = 0; export function inc() { n++; } export const reset = v => { n = v; };
