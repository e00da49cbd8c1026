import { print } from "host";
const fs = []; for (let i = 0; i < 3; i++) { fs.push(() => i); fs.push(() => i++); }
print(fs[0]() + "" + fs[2]() + fs[4]()); fs[1](); fs[1](); print(fs[0]() + "" + fs[2]());
const gs = []; for (let i = 0, step = () => i++; i < 3; i++) { if (gs.length < 2) gs.push(() => i); step(); if (gs.length > 5) break; gs.push(() => i); if (gs.length > 4) break; }
print(gs.map(g => g()).join());
const hs = []; let n = 0; while (n < 3) { const m = n * n; hs.push(() => m); n++; } print(hs.map(h => h()).join());
