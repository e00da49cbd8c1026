import { print } from "host";
const t = f => { try { return f(); } catch (e) { return e.name + ": " + e.message; } };
print(t(() => "a".repeat(-1))); print(t(() => "ab".repeat(600000))); print(t(() => "abc".charCodeAt(3))); print(t(() => "abc".charCodeAt(-1))); print(t(() => "abc".codePointAt(9)));
print(t(() => String.prototype.trim.call(null))); print(t(() => String.prototype.trim.call({}))); print(t(() => "a".indexOf({}))); print(t(() => "a".slice({}))); print(t(() => String({}))); print(t(() => String([1])));
print(t(() => String.prototype.toString.call(1))); print(t(() => String.prototype.slice.call(12345, 1, 3))); print(t(() => String.prototype.split.call(true, "u").join())); print(t(() => String.fromCharCode("66"))); print(t(() => String.fromCharCode(-1).length)); print(t(() => String.fromCharCode("x")));
print(t(() => "abc".slice("x"))); print(t(() => "abc".padStart("5", "z"))); print(t(() => "a".padEnd(2000000))); print(t(() => "abc".includes("b", "1"))); print(t(() => new String("x"))); print(t(() => new print())); print(t(() => { "abc".length = 1; })); print(t(() => { "abc"[0] = "z"; })); print(t(() => { "abc".foo = 1; })); print(t(() => "abc".nope)); print(t(() => "abc".nope()));
const big = "x".repeat(1048576); print(big.length); print(t(() => big + "y")); print(t(() => `${big}y`)); print(t(() => (big + "").length));
