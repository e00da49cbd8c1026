import { print } from "host";
let log = "";
const t = (name, f) => { log = ""; let r; try { r = String(f()); } catch (e) { r = "throws " + (typeof e === "object" ? e.name + " " + e.message : e); } print(name + ": " + r + " " + log); };
const n = (s, v) => { log += s; return v; };
class A { get p() { return "gp" + this.id; } set p(v) { this.seen = v; } m(x) { return "m" + this.id + x; } static s() { return "As" + this.name; } static get q() { return "Aq" + this.name; } }
A.prototype.data = 7;
class B extends A {
  constructor() { super(); this.id = "b"; }
  get() { return super.p + super.m(1) + super["m"](n("k", 2)) + super.data + super.none; }
  set() { super.p = n("v", 5); return this.seen; }
  setData() { super.data = 8; return Object.getOwnPropertyNames(this).join() + this.data + A.prototype.data; }
  op() { super.data += n("v", 1); return this.data; }
  inc() { return super.data++ + "," + this.data + "," + ++super["data"] + "," + this.data; }
  key() { return super[n("a", { toString() { log += "s"; return "data"; } })]; }
  keyset() { return super[n("a", { toString() { log += "s"; return "data"; } })] = n("v", 3); }
  acc() { super.p += "!"; return this.seen; }
  not() { return super.none(); }
  arrow() { return (() => this.id)(); }
  tag() { return typeof super.m + (super.m === A.prototype.m); }
  static s() { return "B" + super.s() + super.q; }
  static t() { super.z = 4; return B.z + "," + A.z; }
}
for (let i = 0, ks = ["get", "set", "setData", "op", "inc", "key", "keyset", "acc", "not", "arrow", "tag"]; i < ks.length; i++) t(ks[i], () => new B()[ks[i]]());
t("s", () => B.s()); t("t", () => B.t());
t("call", () => B.prototype.get.call({ id: "o" })); t("callset", () => B.prototype.setData.call(5)); t("callset2", () => B.prototype.set.call(undefined)); t("frozen", () => B.prototype.setData.call(Object.freeze({})));
const o = { __p: 1, m() { return super.toString === Object.prototype.toString; }, n() { return super.x; }, get g() { return super.hasOwnProperty("m"); } };
t("o", () => o.m() + "," + o.n() + "," + o.g);
const z = { m() { return super.x; }, w() { super.x = n("v", 1); }, k() { return super[n("k", { toString() { log += "s"; return "x"; } })]; } }; Object.setPrototypeOf(z, null);
t("z1", () => z.m()); t("z2", () => z.w()); t("z3", () => z.k());
