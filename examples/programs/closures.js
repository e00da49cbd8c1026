import { print } from "host";
function counter() { let n = 0; return { up() { n++; return n; }, get now() { return n; } }; }
const a = counter(), b = counter(); a.up(); a.up(); b.up(); print(a.now + "" + b.now);
const make = x => () => x++; const m = make(5); m(); print(m());
let shared = 1; const read = () => shared; shared = 2; print(read()); { let shared = 3; print(read() + shared); }
function outer(p) { function inner() { return p; } p += 1; return inner; } print(outer(1)());
const fact = n => n < 2 ? 1 : n * fact(n - 1); print(fact(10));
function even(n) { return n === 0 ? true : odd(n - 1); } function odd(n) { return n === 0 ? false : even(n - 1); } print(even(50));
const t = { v: 1, f() { return () => this.v; } }; print(t.f()());
