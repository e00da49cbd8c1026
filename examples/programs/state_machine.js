import { print } from "host";
const start = c => c === "(" ? open : c === ")" ? shut : start; let depth = 0, worst = 0, fault = false; const open = c => { depth++; worst = Math.max(worst, depth); return start(c); }; const shut = c => { depth--; if (depth < 0) fault = true; return start(c); };
const check = text => { depth = 0; worst = 0; fault = false; let state = start; (text + " ").split("").forEach(c => { state = state(c); }); return depth === 0 && !fault ? "balanced " + worst : "broken"; };
print(check("(a(b)c)")); print(check("((")); print(check(")(")); print(check(""));
