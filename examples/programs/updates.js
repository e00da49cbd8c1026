import { print } from "host";
let n = 5; print(n++); print(n); print(++n); print(n--); print(--n);
const o = { a: 1, "b c": 10 }; print(o.a++); print(o.a); print(++o["b c"]); print(o["b c"]--); print(o["b c"]);
const a = [1, 2]; a[0]++; --a[1]; print(a.join());
let s = "7"; print(s++); print(s); print(typeof s);
o.a += 5; print(o.a); o["a"] *= 3; print(o.a); o.a -= 1; o.a %= 7; print(o.a); o.a **= 2; print(o.a);
let k = 0; const keys = ["x", "y"]; const q = { x: 1, y: 2 }; q[keys[k++]] += 10; print(q.x + "," + q.y + "," + k);
let u; u = n = 3; print(u + n);
