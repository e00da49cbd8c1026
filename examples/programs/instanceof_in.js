import { print } from "host";
function F() { } const f = new F(); print(f instanceof F); F.prototype = {}; print(f instanceof F); print(1 instanceof F); print(Object.create(F.prototype) instanceof F);
const g = () => 1; try { f instanceof g; print("none"); } catch (e) { print(e.name); } try { f instanceof {}; } catch (e) { print(e.name); } try { f instanceof 5; } catch (e) { print(e.name); }
try { "a" in 5; } catch (e) { print(e.name); } print(0 in [7]); print(1 in [7]); print("length" in []); print("x" in { x: undefined }); print("a" in Object.create({ a: 1 }));
print([] instanceof Array); print(new Error() instanceof Error); print(print instanceof Function); print(F instanceof Object);
