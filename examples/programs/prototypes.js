import { print } from "host";
const a = { x: 1, f() { return this.x; } }, b = Object.create(a), c = Object.create(b);
print(c.x); b.x = 2; print(c.f()); c.x = 3; print(c.f() + a.f() + b.f()); delete c.x; print(c.x); print(Object.getPrototypeOf(c) === b);
try { Object.setPrototypeOf(a, c); } catch (e) { print(e.name); }
const n = Object.create(null); n.k = 1; print("toString" in n); print(Object.keys(n).join()); try { print(n + ""); } catch (e) { print(e.name); }
print(Object.getPrototypeOf(Object.prototype)); print(Object.getPrototypeOf([]) === Array.prototype); print(Object.getPrototypeOf(() => 1) === Function.prototype);
print(a.hasOwnProperty("f")); print([] instanceof Object); print(Object.create(null) instanceof Object); print((() => 1) instanceof Function);
const o = {}; Object.setPrototypeOf(o, null); print(Object.getPrototypeOf(o)); try { Object.create(1); } catch (e) { print(e.name); } try { Object.setPrototypeOf({}, 1); } catch (e) { print(e.name); }
const s = { set v(x) { this.got = x; } }; const t = Object.create(s); t.v = 4; print(Object.keys(t).join() + t.got);
