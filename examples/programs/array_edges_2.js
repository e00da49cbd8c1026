import { print } from "host";
const P = Array.prototype;
let log = "";
const keys = o => Object.getOwnPropertyNames(o).map(k => k + "=" + (typeof o[k] === "object" ? "o" : o[k])).join();
const t = (name, f) => { log = ""; let r; try { const v = f(); r = typeof v === "object" && v !== null ? keys(v) : String(v); } catch (e) { r = "throws " + (typeof e === "object" ? e.name : e); } print(name + ": " + r + " " + log); };
const holey = () => { const a = [1, 2, 3, 4, 5]; delete a[1]; delete a[3]; return a; };
t("splice", () => { const a = holey(); return keys(a.splice(1, 2, "x")) + "|" + keys(a); }); t("splice2", () => { const a = holey(); return keys(a.splice(1, 1, "x", "y", "z")) + "|" + keys(a); }); t("splice3", () => { const a = holey(); return keys(a.splice(-2)) + "|" + keys(a); }); t("splice4", () => { const a = holey(); return keys(a.splice()) + "|" + keys(a.splice(1, 0)) + "|" + keys(a); });
