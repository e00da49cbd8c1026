import { print } from "host";
const wait = (n, v) => n === 0 ? Promise.resolve(v) : Promise.resolve().then(() => wait(n - 1, v));
const all = ps => new Promise((res, rej) => { const out = []; let left = ps.length; ps.forEach((p, i) => p.then(v => { out[i] = v; left--; if (left === 0) res(out); }, rej)); });
all([wait(3, "a"), wait(0, "b"), wait(1, "c")]).then(vs => print(vs.join())); all([wait(2, 1), Promise.reject("no")]).catch(e => print("all " + e));
wait(1, 5).then(v => { throw v + 1; }).catch(e => e * 2).then(v => print(v)); const race = ps => new Promise((a, b) => ps.forEach(p => p.then(a, b))); race([wait(5, "slow"), wait(1, "fast")]).then(v => print(v));
Promise.reject(1).catch(e => Promise.reject(e + 1)).catch(e => print("e" + e)); Promise.resolve(1).then(v => ({ then(f) { f(v + 10); } })).then(v => print(v));
