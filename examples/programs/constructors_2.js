import { print } from "host";
let log = "";
const t = (name, f) => { log = ""; let r; try { r = String(f()); } catch (e) { r = "throws " + (typeof e === "object" ? e.name + " " + e.message : e); } print(name + ": " + r + " " + log); };
const n = (s, v) => { log += s; return v; };
class D { constructor() { n("D"); } }
t("u11", () => { class E extends Function { } return new E(); });
t("u12", () => { function F() { this.a = 1; } F.prototype = 5; return Object.getPrototypeOf(new F()) === Object.prototype; });
t("u13", () => { function F(a, b) { return this; } return F() === undefined ? F.call(7) + F.length : "no"; });
t("u14", () => { class C { constructor(a, b) { } static length() { return 1; } } return typeof C.length + C.name; });
t("u15", () => { class C { static name() { return 1; } } return typeof C.name; });
t("u16", () => { const C = class { static name() { return 1; } }; return typeof C.name; });
t("u17", () => { const o = { ["x" + 1]: class { }, ["y"]: class { static name() { } }, z: class Q { } }; return o.x1.name + typeof o.y.name + o.z.name; });
t("u18", () => { const C = class D { f() { D = 1; } }; return new C().f(); });
t("u19", () => { const f = function g(x) { if (x) return g(0); g = 5; }; return f(1); });
