import { print } from "host";
const a = () => 1, b = function () { }, c = class { }, d = function own() { }; print([a, b, c, d].map(f => f.name).join());
const o = { e: () => 1, f() { }, get g() { return 1; }, ["h" + 1]: () => 1, i: class { static name2() { } }, 5: () => 1 }; print([o.e, o.f, o.h1, o.i, o[5]].map(f => f.name).join()); print(Object.getOwnPropertyDescriptor(o, "g").get.name);
let x; x = () => 1; print(x.name); (x) = function () { }; print(x.name === ""); const p = {}; p.q = () => 1; print(p.q.name === ""); const arr = [() => 1]; print(arr[0].name === ""); print((() => 1).name === "");
class K { m() { } static s() { } get a() { return 1; } ["z" + 1]() { } } print(K.prototype.m.name + K.s.name + K.prototype.z1.name); class N { static name() { return "method"; } } print(N.name()); const n2 = class { static name() { return "own"; } }; print(n2.name());
print(Object.getOwnPropertyNames(a).join()); print(Object.getOwnPropertyNames(function () { }).join()); print(a.length + "" + ((p, q) => 1).length); try { a.name = "z"; } catch (e) { print(e.name); } Object.defineProperty(a, "name", { value: "changed" }); print(a.name); print(delete a.name); print(a.name === "");
