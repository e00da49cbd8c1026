import { print } from "host";
const p = Promise.reject("r"); p.catch(e => print("caught " + e)); print("m");
const q = Promise.reject(1).then(v => print("never")); q.catch(e => { print("q" + e); throw "again"; }).catch(e => print(e));
