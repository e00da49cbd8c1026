import { print } from "host";
class A { constructor() { this.made = this.constructor.name; } }
class B extends A { constructor(f) { if (f === 1) return; if (f === 2) return { other: 1 }; if (f === 3) { super(); return undefined; } super(); } }
const tries = [() => new B(1), () => new B(2).other, () => new B(3).made, () => new B(4).made];
for (let i = 0; i < 4; i++) { try { print(tries[i]()); } catch (e) { print(e.name); } }
class D extends A { constructor() { const f = () => this; try { f(); } catch (e) { print(e.name); } super(); print(f() === this); } } new D();
class L extends Array { sum() { let t = 0; this.forEach(x => { t += x; }); return t; } } const l = new L(); l.push(1); l.push(2, 3); print(l.sum() + " " + l.length + " " + Array.isArray(l) + " " + (l instanceof L));
class X extends Error { constructor(m) { super(m); this.name = "X"; } } try { throw new X("y"); } catch (e) { print(e + "" + (e instanceof Error)); }
function Old(n) { this.n = n; } Old.prototype.get = function () { return this.n; }; class New extends Old { get() { return super.get() + 1; } } print(new New(1).get());
class Pr extends Promise { } const p = new Pr(r => r(5)); p.then(v => print("p" + v)); print(p instanceof Pr);
