import { print } from "host";
const p = new Promise((res, rej) => { print("exec"); res(1); res(2); rej(3); });
p.then(v => { print("a" + v); return "x"; }).then(v => { print("b" + v); throw "y"; }).catch(e => { print("c" + e); return 5; }).then(v => print("d" + v));
Promise.resolve("r").then(v => print(v)); Promise.reject("j").then(null, e => print("e" + e)); Promise.resolve(p).then(v => print("same " + (Promise.resolve(p) === p)));
p.then().then(v => print("through" + v)); p.then(5, 6).then(v => print("skip" + v)); Promise.reject("z").then(v => print("never")).catch(e => print("got " + e));
new Promise(res => res({ then(f, r) { print("then called"); f("th"); f("no"); r("no"); } })).then(v => print(v)); new Promise(res => res({ get then() { throw "boom"; } })).catch(e => print(e)); new Promise(res => { throw "ex"; }).catch(e => print(e)); new Promise(res => { res(1); throw "late"; }).then(v => print("kept" + v));
new Promise(res => res(new Promise(r => r("nested")))).then(v => print(v)); Promise.resolve({ then: 3 }).then(v => print("plain" + v.then)); print("main");
