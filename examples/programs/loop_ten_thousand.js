import { print } from "host";
let s = 0; for (let i = 0; i < 10000; i++) s += i; print(s);
