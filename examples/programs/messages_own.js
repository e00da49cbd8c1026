import { print } from "host";
const tries = [
  () => 1 / 0, () => "x".repeat(2000000), () => { const a = []; a.length = -1; }, () => (5).toString(1), () => notBound, () => { later; let later = 1; },
  () => [].reduce((a, b) => a), () => { class A { } class B extends A { constructor() { super(); super(); } } new B(); }, () => { const c = 1; c = 2; }, () => { (1)(); },
  () => new (() => 1)(), () => { class A { } A(); }, () => null.x, () => { Object.freeze([1]).push(2); }, () => Object.defineProperty(Object.freeze({}), "a", { value: 1 }),
  () => { delete Object.freeze({ a: 1 }).a; }, () => Object.keys(1), () => +{ valueOf() { return {}; }, toString() { return {}; } }, () => Number({}), () => Object.defineProperty({}, 1, { get() { } }),
  () => Object.setPrototypeOf(Object.preventExtensions({}), {}), null, () => Boolean.prototype.toString.call(1), () => { class A { } class B extends A { constructor() { super(); return 1; } } new B(); } ];
for (let i = 0; i < tries.length; i++) { if (tries[i] === null) continue; try { tries[i](); print("none"); } catch (e) { print((i + 1) + " " + e.name + ": " + e.message); } }
let r; const p = new Promise(f => { r = f; }); p.catch(e => print("22 " + e)); r(p);
