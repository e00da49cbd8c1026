import { print } from "host";
const ro = Object.create(Object.defineProperty({}, "x", { value: 1, writable: false })); try { ro.x = 2; } catch (e) { print(e.name); } print(Object.keys(ro).length);
class A { set v(x) { this.got = x; } } class B extends A { put(x) { super.v = x; super.w = x; return Object.keys(this).join(); } } print(new B().put(3));
const o = { get only() { return 1; } }; try { o.only = 2; } catch (e) { print(e.name); } const h = Object.defineProperty({}, "h", { value: 1, writable: true, enumerable: false }); h.h = 2; print(h.h + Object.keys(h).length);
const c = { m() { super.z = 1; } }; const recv = Object.defineProperty({}, "z", { get() { return 9; } }); try { c.m.call(recv); } catch (e) { print(e.name); } print(recv.z);
const fz = Object.freeze({}); try { c.m.call(fz); } catch (e) { print(e.name); } try { c.m.call(5); } catch (e) { print(e.name); } 
