import { print } from "host";
const t = f => { try { return f(); } catch (e) { return e.name + ": " + e.message; } };
print(t(() => nope)); print(t(() => typeof nope)); print(t(() => nope())); print(t(() => nope.x)); print(t(() => [typeof Symbol, typeof JSON, typeof Map, typeof Date, typeof Reflect, typeof console, typeof Object, typeof Array, typeof parseInt].join())); print(t(() => isNaN(1)));
