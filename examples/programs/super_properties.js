import { print } from "host";
class A { get v() { return this.t; } set v(x) { this.t = "A" + x; } m() { return "m"; } }
class B extends A { read() { return super.v; } write(x) { super.v = x; return this.t; } add() { super.q = 5; return Object.keys(this).join(); } call(k) { return super[k](); } none() { return super.zip; } upd() { super.n = 1; return super.n; } }
const b = new B(); b.t = 1; print(b.read()); print(b.write(2)); print(b.add()); print(b.call("m")); print(b.none()); print(b.upd());
const base = { hi() { return "hi " + this.n; } }; const o = { n: "o", hi() { return super.hi() + "!"; } }; Object.setPrototypeOf(o, base); print(o.hi());
const taken = { n: "taken", hi: o.hi }; print(taken.hi());
class S1 { static x() { return "sx"; } } class S2 extends S1 { static x() { return super.x() + 2; } } print(S2.x());
