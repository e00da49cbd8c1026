import { print } from "host";
const o = { if: 1, class: 2, new: 3, null: 4, typeof: 5, let: 6, await: 7 }; print(o.if + o.class + o.new + o.null + o.typeof + o.let + o.await);
class K { static static() { return "s"; } get() { return "g"; } set() { return "t"; } static get get() { return "sg"; } delete() { return "d"; } } const k = new K(); print(K.static() + k.get() + k.set() + K.get + k.delete());
let of = 1, get = 2, set = 3, from = 4, as = 5, async = 6, undefined2 = 7; print(of + get + set + from + as + async + undefined2); print(typeof undefined); const $ = 1, _ = 2, ñ = 3; print($ + _ + ñ);
