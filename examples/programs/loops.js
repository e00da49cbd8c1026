import { print } from "host";
let i = 0; while (i < 3) { print("w" + i); i++; }
do { print("d" + i); i--; } while (i > 1);
for (let j = 0, k = 10; j < k; j += 4, k--) print(j + ":" + k);
for (;;) { i++; if (i === 3) continue; if (i > 5) break; print("f" + i); }
for (i = 0; i < 2; i++); print(i);
let out = ""; for (const c = "c"; out.length < 3;) out += c; print(out);
for (let x = 0; x < 3; x++) { for (let y = 0; y < 3; y++) { if (y === x) break; print(x + "" + y); } }
