export const f = Object.freeze([1, 2]);
