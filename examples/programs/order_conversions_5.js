import { print } from "host";
let log = "";
const t = f => { log = ""; let r; try { const v = f(); r = typeof v === "object" && v !== null || typeof v === "function" ? Object.prototype.toString.call(v) : String(v); } catch (e) { r = typeof e === "object" ? e.name : e; } print(r + " " + log); };
const n = (s, v) => { log += s; return v; };
const ob = (s, v) => ({ valueOf() { log += s + "v"; return v; }, toString() { log += s + "s"; return "" + v; } });
const bad = s => ({ valueOf() { log += s + "v"; return {}; }, toString() { log += s + "s"; return {}; } });
