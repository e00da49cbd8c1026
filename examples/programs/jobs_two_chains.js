import { print } from "host"; Promise.resolve(1).then(v => print("a" + v)); Promise.resolve(2).then(v => print("b" + v)).then(() => print("c")); print("m");
