import { print } from "host";
const P = Array.prototype;
let log = "";
const keys = o => Object.getOwnPropertyNames(o).map(k => k + "=" + (typeof o[k] === "object" ? "o" : o[k])).join();
const t = (name, f) => { log = ""; let r; try { const v = f(); r = typeof v === "object" && v !== null ? keys(v) : String(v); } catch (e) { r = "throws " + (typeof e === "object" ? e.name : e); } print(name + ": " + r + " " + log); };
const holey = () => { const a = [1, 2, 3, 4, 5]; delete a[1]; delete a[3]; return a; };
t("concat", () => holey().concat(holey(), { length: 1, 0: 1 })); t("slice", () => holey().slice(1, 4)); t("slice2", () => holey().slice(-3, -1)); t("pop", () => { const a = holey(); a.length = 4; return a.pop() + keys(a); });
