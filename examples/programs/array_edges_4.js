import { print } from "host";
const P = Array.prototype;
let log = "";
const keys = o => Object.getOwnPropertyNames(o).map(k => k + "=" + (typeof o[k] === "object" ? "o" : o[k])).join();
const t = (name, f) => { log = ""; let r; try { const v = f(); r = typeof v === "object" && v !== null ? keys(v) : String(v); } catch (e) { r = "throws " + (typeof e === "object" ? e.name : e); } print(name + ": " + r + " " + log); };
const holey = () => { const a = [1, 2, 3, 4, 5]; delete a[1]; delete a[3]; return a; };
t("map", () => holey().map(x => x * 2)); t("filter", () => holey().filter(x => x > 1)); t("every", () => holey().every(x => x !== undefined)); t("some", () => holey().some(x => x === undefined)); t("reduce", () => { const a = holey(); delete a[0]; return a.reduce((x, y, i) => x + "/" + y + "@" + i); }); t("find", () => holey().findIndex(x => x === undefined)); t("indexOf", () => holey().indexOf(undefined)); t("includes", () => holey().includes(undefined)); t("join", () => holey().join()); t("fill", () => holey().fill(0, 1, -1));
