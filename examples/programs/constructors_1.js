import { print } from "host";
let log = "";
const t = (name, f) => { log = ""; let r; try { r = String(f()); } catch (e) { r = "throws " + (typeof e === "object" ? e.name + " " + e.message : e); } print(name + ": " + r + " " + log); };
const n = (s, v) => { log += s; return v; };
class D { constructor() { n("D"); } }
t("u1", () => { class E extends D { constructor(f) { f(() => this); super(); } } let g; new E(h => { g = h; }); return g() instanceof E; });
t("u2", () => { class E extends D { constructor() { super(super()); } } return new E(); });
t("u3", () => { class E extends D { constructor() { super(); Object.setPrototypeOf(E, n("x", Array)); } } new E(); return Array.isArray(new E()); });
t("u4", () => { class E extends D { constructor() { super(n("a", Object.setPrototypeOf(E, Array)).length); } } return Array.isArray(new E()) + "" + new E().length; });
t("u5", () => { class E extends D { } Object.setPrototypeOf(E, Object.prototype); return new E(); });
t("u6", () => { class E extends D { constructor() { super(n("arg")); } } Object.setPrototypeOf(E, null); return new E(); });
t("u7", () => { class E extends Error { } const e = new E("msg"); return e.name + e.message + (e instanceof E) + Object.prototype.toString.call(e) + Object.getOwnPropertyNames(e).join(); });
t("u8", () => { class E extends Array { } const e = new E(1, 2); return e.length + e.join() + (e instanceof E) + (e.map(x => x) instanceof E); });
t("u9", () => { class E extends Promise { } return new E(() => 1).then() instanceof E; });
t("u10", () => { class E extends Object { constructor() { super({ z: 1 }); } } return new E().z + "" + (new E() instanceof E); });
