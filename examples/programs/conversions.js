import { print } from "host";
let log = ""; const o = { valueOf() { log += "v"; return 7; }, toString() { log += "s"; return "str"; } };
print(o + 1); print(o * 2); print(`${o}`); print(o + ""); print(o > 6); print(o == 7); print({ str: 9 }[o]); print(log); log = "";
const p = { valueOf() { log += "v"; return {}; }, toString() { log += "s"; return "5"; } }; print(p - 1); print(p + 1); print(`${p}`); print(log);
const bad = { valueOf: 1, toString: 2 }; try { bad + 1; } catch (e) { print(e.name); } try { `${Object.create(null)}`; } catch (e) { print(e.name); }
const thrower = { valueOf() { throw "thrown"; } }; try { thrower + 1; } catch (e) { print(e); } try { +thrower; } catch (e) { print(e); }
print([] + []); print([5] * 1); print([] == ""); print([1, 2] == "1,2"); print({} + "x"); print((() => 1) == (() => 1)); print(null + "n"); print(true + 1); print("3" - - "3"); print(-"4"); print(!"" + 1);
