import { print } from "host";
const c = 1; const tries = [() => { c = 2; }, () => { c += 1; }, () => { c++; }, () => { (function me() { me = 1; })(); }, () => { print = 1; }, () => { class K { static s() { K = 1; } } K.s(); }];
for (let i = 0; i < tries.length; i++) { try { tries[i](); print("fine"); } catch (e) { print(e.message); } }
print(c);
