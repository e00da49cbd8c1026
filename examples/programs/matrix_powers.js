import { print } from "host";
const mul = (a, b) => a.map(row => b[0].map((x, j) => row.reduce((s, v, k) => s + v * b[k][j], 0))); const id = n => { const m = []; for (let i = 0; i < n; i++) { m[i] = []; for (let j = 0; j < n; j++) m[i].push(i === j ? 1 : 0); } return m; }; const pow = (m, e) => { let r = id(m.length); for (; e > 0; e >>= 1, m = mul(m, m)) if (e & 1) r = mul(r, m); return r; };
const show = m => m.map(r => r.join(" ")).join(";"); print(show(pow([[1, 1], [1, 0]], 20))); print(show(id(3))); print(show(mul([[1, 2, 3]], [[4], [5], [6]])));
