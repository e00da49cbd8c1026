import { print } from "host"; import { p, r } from "lib"; p.then(v => print(v)); r(7); print("m");
