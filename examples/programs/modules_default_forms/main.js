import { print } from "host"; import f from "fun"; import C from "cls"; import v from "val"; import a from "arr"; print(f() + f.name); print(new C().m() + C.name); print(v); print(a(3) + a.name);
