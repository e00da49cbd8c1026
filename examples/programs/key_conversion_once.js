import { print } from "host";
let n = 0; const k = { toString() { n++; return "a"; } }; const o = { a: 5 };
o[k] += 1; print(n + ":" + o.a); o[k]++; print(n + ":" + o.a); --o[k]; print(n + ":" + o.a); print(o[k] + ":" + n); o[k] = 1; print(n); delete o[k]; print(n + "" + ("a" in o)); print((k in o) + "" + n);
