import { print } from "host";
const t = f => { try { const v = f(); return typeof v === "object" && v !== null ? Object.prototype.toString.call(v) : v; } catch (e) { return e.name + ": " + e.message; } };
const names = o => Object.getOwnPropertyNames(o).join(" ");
const fl = (o, k) => { const d = Object.getOwnPropertyDescriptor(o, k); return (d.writable ? "w" : "-") + (d.enumerable ? "e" : "-") + (d.configurable ? "c" : "-"); };
for (let i = 0, list = [Object, Function, Error, RangeError, ReferenceError, SyntaxError, TypeError, Boolean, Number, Promise, String, Array]; i < list.length; i++) {
  const f = list[i], p = f.prototype;
  print(names(f) + " | " + fl(f, "length") + fl(f, "name") + fl(f, "prototype"));
  print(names(p) + " | " + fl(p, "constructor") + (p.constructor === f));
  print(Object.getPrototypeOf(f) === Function.prototype ? "F" : Object.getPrototypeOf(f) === Error ? "E" : "?");
  print(Object.getPrototypeOf(p) === Object.prototype ? "O" : Object.getPrototypeOf(p) === Error.prototype ? "E" : Object.getPrototypeOf(p) === null ? "null" : "?");
  const all = Object.getOwnPropertyNames(f).map(k => typeof f[k] === "function" && k !== "prototype" ? k + f[k].name + f[k].length + fl(f, k) + names(f[k]) + ("prototype" in f[k]) : "").join(";");
  print(all);
  print(Object.getOwnPropertyNames(p).map(k => typeof p[k] === "function" && k !== "constructor" ? k + ":" + p[k].name + p[k].length + fl(p, k) + names(p[k]) : "").join(";"));
}
print(names(Math)); print(Object.prototype.toString.call(Math)); print(Object.getOwnPropertyNames(Math).map(k => k + Math[k].name + Math[k].length + fl(Math, k)).join(";"));
print(fl(Number, "MAX_SAFE_INTEGER") + fl(Number, "MIN_SAFE_INTEGER") + Number.MAX_SAFE_INTEGER + Number.MIN_SAFE_INTEGER);
print(parseInt === Number.parseInt); print(typeof Function.prototype); print(Function.prototype(1, 2)); print(Function.prototype.length + "[" + Function.prototype.name + "]");
print(Array.isArray(Array.prototype)); print(Array.prototype.length); print(Object.prototype.toString.call(Error.prototype)); print(t(() => new Function.prototype())); print(t(() => new Math.abs(1))); print(t(() => new Boolean(1))); print(t(() => new Number(1))); print(t(() => new parseInt("1"))); print(t(() => Function("a"))); print(t(() => new Function("a"))); print(t(() => Promise(1))); print(t(() => new Promise(1))); print(t(() => new Promise()));
print(print.name + print.length + names(print)); 
print(fl(Error.prototype, "name") + fl(Error.prototype, "message") + fl(RangeError.prototype, "name") + "[" + RangeError.prototype.message + "]" + RangeError.prototype.name);
new Promise((a, b) => { print(a.name + a.length + names(a) + b.name + b.length + names(b) + fl(a, "name") + fl(a, "length")); });
