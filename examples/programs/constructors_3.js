import { print } from "host";
let log = "";
const t = (name, f) => { log = ""; let r; try { r = String(f()); } catch (e) { r = "throws " + (typeof e === "object" ? e.name + " " + e.message : e); } print(name + ": " + r + " " + log); };
const n = (s, v) => { log += s; return v; };
class D { constructor() { n("D"); } }
t("u20", () => { const f = function g() { let g = 3; return g; }; return f() + f.name; });
t("u21", () => { class C { constructor() { return null; } } return new C() instanceof C; });
t("u22", () => { class C { get x() { return 1; } static get x() { return 2; } } const c = new C(); c.x = 5; });
t("u23", () => { const o = { get a() { return 1; }, a: 2, b: 1, get b() { return 3; }, set b(v) { n("set" + v); } }; o.b = 4; return o.a + "," + o.b + Object.keys(o).join(); });
t("u24", () => { const o = { set x(v) { n("s" + v); } }; o.x = 1; return o.x; });
t("u25", () => { const o = { 1: "a", 0x10: "b", "01": "c", b: 1, 0: "z", "-1": "m" }; return Object.keys(o).join(); });
t("u26", () => { const o = { f() { }, get g() { return 1; }, ["h" + 1]() { }, 5() { }, "s t"() { } }; return o.f.name + o.h1.name + o[5].name + o["s t"].name + Object.getOwnPropertyDescriptor(o, "g").get.name + typeof o.f.prototype; });
t("u27", () => new ({ f() { } }).f()); t("u28", () => new (() => 1)());
