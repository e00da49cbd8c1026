import { print } from "host";
const a = [1, 2, 3]; Object.defineProperty(a, 1, { value: 2, configurable: false, writable: true, enumerable: true });
try { a.length = 0; } catch (e) { print(e.name); } print(a.length + "|" + a.join()); a[5] = 6; print(a.length); Object.defineProperty(a, "length", { writable: false }); try { a.push(1); } catch (e) { print(e.name); } try { a[9] = 1; } catch (e) { print(e.name); } a[0] = 8; print(a[0]); print(a.length);
const b = []; b[4294967294] = "last"; print(b.length); try { b.push("over"); } catch (e) { print(e.name); } const c = [1, 2, 3]; c.length = "2"; print(c.join()); delete c[0]; print(c.length + (0 in c ? "in" : "out")); print(Object.keys([5, 6]).join()); const d = [0]; d.x = 1; d[3] = 3; print(Object.keys(d).join() + d.length); print(Object.getOwnPropertyNames(d).join());
try { Object.defineProperty([], "length", { get() { return 1; } }); } catch (e) { print(e.name); } print(Object.getOwnPropertyDescriptor([], "length").configurable);
