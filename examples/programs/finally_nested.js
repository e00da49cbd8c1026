import { print } from "host";
let log = "";
function f(n) { try { try { if (n === 0) return "r"; if (n === 1) throw "t"; log += "n"; } finally { log += "a"; } } catch (e) { log += e; return "c"; } finally { log += "b"; } return "end"; }
print(f(0) + f(1) + f(2) + log);
function g() { let x = 1; try { return x; } finally { x = 2; } } print(g());
function h() { let i = 0; for (;;) { try { try { i++; if (i < 3) continue; return i; } finally { log += i; } } finally { log += "|"; } } } log = ""; print(h() + log);
function k() { switch (1) { case 1: try { break; } finally { log = "sw"; } } return log; } print(k());
