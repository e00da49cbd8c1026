import { print } from "host";
const t = f => { try { f(); return "ok"; } catch (e) { return e.name; } };
const fr = Object.freeze({ a: 1, n: { b: 2 } }); print(t(() => { fr.a = 2; })); print(t(() => { fr.z = 2; })); print(t(() => { delete fr.a; })); fr.n.b = 3; print(fr.n.b); print(Object.isFrozen(fr)); print(Object.isFrozen({})); print(Object.isFrozen(Object.preventExtensions({})));
const pe = Object.preventExtensions({ a: 1 }); print(t(() => { pe.a = 2; })); print(t(() => { pe.b = 1; })); print(t(() => { delete pe.a; })); print(t(() => { pe.a = 1; })); print(Object.isExtensible(pe)); print(Object.isExtensible({}));
print(t(() => Object.setPrototypeOf(pe, {}))); print(t(() => Object.setPrototypeOf(pe, Object.prototype))); print(Object.freeze(5)); print(Object.isFrozen("s")); print(Object.isExtensible(1));
const arr = Object.freeze([1, 2]); print(t(() => arr.push(3))); print(t(() => arr.pop())); print(t(() => { arr.length = 0; })); print(t(() => { arr[0] = 9; })); print(arr.join());
const g = Object.freeze({ get v() { return 5; }, set v(x) { this.w.x = x; }, w: {} }); g.v = 8; print(g.w.x + g.v);
const child = Object.create(fr); print(t(() => { child.a = 5; })); print(Object.keys(child).length);
