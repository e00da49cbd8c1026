import { print } from "host";
let log = ""; const c = (n, v) => { log += n; return v; };
switch (c("s", 2)) { case c("a", 1): default: log += "D"; case c("b", 2): log += "B"; break; case c("x", 2): log += "X"; }
print(log); log = "";
for (let i = 0; i < 4; i++) { switch (i) { case 1: continue; case 3: break; default: log += i; } log += "."; }
print(log);
const fs = []; switch (1) { case 0: let v = 1; case 1: v2(); function v2() { fs.push(7); } } print(fs.join());
