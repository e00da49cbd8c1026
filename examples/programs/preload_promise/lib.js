export let r; export const p = new Promise(f => { r = f; });
