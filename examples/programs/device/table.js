export const base = Object.freeze([10, 20]);
