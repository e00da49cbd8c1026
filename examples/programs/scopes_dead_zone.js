import { print } from "host";
const tries = [() => { a; let a = 1; }, () => { b = 1; const b = 2; }, () => { typeof c; let c; }, () => { new D(); class D { } }, () => f(), () => { let g = g + 1; }];
let x = "outer"; { let x = "inner"; print(x); } print(x);
for (let i = 0; i < tries.length; i++) { try { tries[i](); print("fine"); } catch (e) { print(e.name); } }
function f() { return later; } const later = 5; print(f());
{ function x2() { return 1; } print(x2()); { function x2() { return 2; } print(x2()); } print(x2()); }
