import { print } from "host";
class A { constructor(x) { this.x = x; } get dbl() { return this.x * 2; } set dbl(v) { this.x = v / 2; } m() { return "A" + this.x; } static s() { return "S" + this.name; } }
const a = new A(3); print(a.dbl); a.dbl = 10; print(a.x); print(a.m()); print(A.s()); print(typeof A); print(A.name + A.length);
class B extends A { constructor(x, y) { super(x); this.y = y; } m() { return "B" + super.m() + this.y; } get dbl() { return super.dbl + 1; } static s() { return "T" + super.s(); } }
const b = new B(4, 5); print(b.m()); print(b.dbl); print(B.s()); print(b instanceof A); print(Object.getPrototypeOf(B) === A);
class C extends B { } const c = new C(6, 7); print(c.m()); print(C.length + C.name);
const E = class Named { who() { return Named === E; } }; print(new E().who()); print(E.name); const F = class { }; print(F.name);
print(Object.keys(A.prototype).length); print(Object.getOwnPropertyNames(A.prototype).join()); print(Object.getOwnPropertyNames(A).join());
class G { ["comp" + "uted"]() { return 1; } static ["st" + 1]() { return 2; } get ["g"]() { return 3; } "str"() { return 4; } 5() { return 5; } } const g = new G(); print(g.computed() + G.st1() + g.g + g.str() + g[5]());
