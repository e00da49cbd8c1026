import { print } from "host";
let log = []; const k = n => { log.push(n); return n; };
class A { [k("a")]() { } static [k("b")]() { } get [k("c")]() { return 1; } } print(log.join());
log = []; class P { } const h = () => { log.push("heritage"); return P; }; class B extends h() { [k("m")]() { } } print(log.join());
try { class Z extends (() => 1) { } } catch (e) { print(e.name); } try { class Z extends 5 { } } catch (e) { print(e.name); }
function F() { } F.prototype = 3; try { class Z extends F { } } catch (e) { print(e.name); }
class S { static m() { return this.v; } } S.v = 9; print(S.m()); class T extends S { } print(T.m()); T.v = 1; print(S.v + T.v);
