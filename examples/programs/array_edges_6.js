import { print } from "host";
const P = Array.prototype;
let log = "";
const keys = o => Object.getOwnPropertyNames(o).map(k => k + "=" + (typeof o[k] === "object" ? "o" : o[k])).join();
const t = (name, f) => { log = ""; let r; try { const v = f(); r = typeof v === "object" && v !== null ? keys(v) : String(v); } catch (e) { r = "throws " + (typeof e === "object" ? e.name : e); } print(name + ": " + r + " " + log); };
const holey = () => { const a = [1, 2, 3, 4, 5]; delete a[1]; delete a[3]; return a; };
t("grow", () => { const a = [1, 2]; a.forEach(x => { a.push(x); log += x; }); return a; }); t("shrink", () => { const a = [1, 2, 3]; a.forEach(x => { a.pop(); log += x; }); return a; }); t("mapshrink", () => { const a = [1, 2, 3]; return a.map(x => { a.length = 1; return x; }); }); t("thrower", () => { const a = [1, 2, 3]; return a.map(x => { log += x; if (x === 2) throw "two"; return x; }); }); t("thisArg", () => [1].map(function (x) { return this === undefined ? "u" : this; }, 7)); t("args", () => { [5].forEach((v, i, a) => { log += v + "," + i + "," + a.length; }); });
