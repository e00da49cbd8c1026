import { print } from "host"
let a = 1
const f = function () { return "f" }
let b = a
++a
print(a + "" + b)
const o = { x: 1 }
print(o
  .x)
do a--; while (a > 0) print(a)
function g() {
  return
  5
}
print(g())
for (let i = 0; i < 1; i++) { continue }
if (a) { } else print("else")
const h = () => { }
print(h() === undefined);
;;
class C { m() { return 1 }; n() { return 2 } }
print(new C().m() + new C().n())
