import { print } from "host"; import { a, b } from "lib"; a.x = 1; print(b.a === a); print(b.a.x);
