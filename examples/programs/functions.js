import { print } from "host";
function add(a, b) { return a + b; }
print(add(1, 2)); print(add.length); print(add.name); print(add(1, "x")); print(String(add("p")));
const anon = function () { return 1; }; print(anon.name); const arrow = x => x * 2; print(arrow(4) + arrow.name + arrow.length);
const self = function me(n) { return n === 0 ? "end" : me(n - 1); }; print(self(3)); print(self.name); print(typeof me);
print((function () { return this; })() === undefined); print((function () { return this; }).call(5)); 
print(hoisted()); function hoisted() { return "up"; }
const o = { m() { return this.v; }, v: 7 }; print(o.m()); const m = o.m; try { m(); } catch (e) { print(e.name); } print((0, o.m).call({ v: 8 })); print(o["m"]());
function Pt(x) { this.x = x; } Pt.prototype.get = function () { return this.x; }; print(new Pt(3).get()); print(new Pt(1) instanceof Pt); print(Pt.prototype.constructor === Pt);
function Ret() { return { z: 1 }; } print(new Ret().z); function Prim() { this.a = 2; return 5; } print(new Prim().a);
print(add.call(null, 3, 4)); print(add.apply(null, [5, 6])); print((() => { })()); print((a => b => a + b)(1)(2));
