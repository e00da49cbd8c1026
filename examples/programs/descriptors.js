import { print } from "host";
const show = (o, k) => { const d = Object.getOwnPropertyDescriptor(o, k); return d === undefined ? "none" : Object.keys(d).map(n => n + ":" + (typeof d[n] === "function" ? "f" : d[n])).join(); };
const o = { v: 1, get a() { return 2; } };
print(show(o, "v")); print(show(o, "a")); print(show(o, "zz"));
Object.defineProperty(o, "h", { value: 3 }); print(show(o, "h")); print(Object.keys(o).join());
try { o.h = 4; } catch (e) { print(e.name); } try { delete o.h; } catch (e) { print(e.name); } try { Object.defineProperty(o, "h", { value: 5 }); } catch (e) { print(e.name); }
Object.defineProperty(o, "h", { value: 3 }); Object.defineProperty(o, "v", { writable: false }); print(show(o, "v")); Object.defineProperty(o, "v", { value: 9 }); print(o.v);
Object.defineProperty(o, "a", { value: 7 }); print(show(o, "a")); Object.defineProperty(o, "v", { get() { return 11; } }); print(show(o, "v")); print(o.v);
try { Object.defineProperty({}, "x", { value: 1, get() { return 1; } }); } catch (e) { print(e.name); } try { Object.defineProperty({}, "x", { get: 1 }); } catch (e) { print(e.name); } try { Object.defineProperty({}, "x", 1); } catch (e) { print(e.name); }
print(show([1, 2], "length")); print(show([1], 0)); print(show(function f(a) { }, "name")); print(show(class { }, "prototype"));
const q = Object.create({ inherited: 1 }); Object.defineProperty(q, "u", {}); print(show(q, "u")); print(show(q, "inherited"));
