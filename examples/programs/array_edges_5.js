import { print } from "host";
const P = Array.prototype;
let log = "";
const keys = o => Object.getOwnPropertyNames(o).map(k => k + "=" + (typeof o[k] === "object" ? "o" : o[k])).join();
const t = (name, f) => { log = ""; let r; try { const v = f(); r = typeof v === "object" && v !== null ? keys(v) : String(v); } catch (e) { r = "throws " + (typeof e === "object" ? e.name : e); } print(name + ": " + r + " " + log); };
const holey = () => { const a = [1, 2, 3, 4, 5]; delete a[1]; delete a[3]; return a; };
t("p.reverse", () => P.reverse.call(proto())); t("p.shift", () => { const o = proto(); return P.shift.call(o) + keys(o); }); t("p.map", () => P.map.call(proto(), x => x + "!")); t("p.slice", () => P.slice.call(proto())); t("p.concat", () => P.concat.call(proto(), 1)[1]); t("p.splice", () => { const o = proto(); return keys(P.splice.call(o, 0, 1)) + "|" + keys(o); }); t("p.pop", () => { const o = proto(); o.length = 2; return P.pop.call(o) + keys(o); }); t("p.forEach", () => { P.forEach.call(proto(), (x, i) => { log += i + x; }); }); t("p.unshift", () => { const o = proto(); return P.unshift.call(o, "n") + keys(o); });
