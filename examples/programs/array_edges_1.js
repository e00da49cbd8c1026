import { print } from "host";
const P = Array.prototype;
let log = "";
const keys = o => Object.getOwnPropertyNames(o).map(k => k + "=" + (typeof o[k] === "object" ? "o" : o[k])).join();
const t = (name, f) => { log = ""; let r; try { const v = f(); r = typeof v === "object" && v !== null ? keys(v) : String(v); } catch (e) { r = "throws " + (typeof e === "object" ? e.name : e); } print(name + ": " + r + " " + log); };
const holey = () => { const a = [1, 2, 3, 4, 5]; delete a[1]; delete a[3]; return a; };
const proto = () => { const o = Object.create({ 1: "p" }); o[0] = "a"; o.length = 3; return o; };
t("reverse", () => holey().reverse()); t("reverse4", () => { const a = [1, 2, 3, 4]; delete a[0]; return a.reverse(); }); t("shift", () => { const a = holey(); return a.shift() + keys(a); }); t("unshift", () => { const a = holey(); return a.unshift(9, 8) + keys(a); });
