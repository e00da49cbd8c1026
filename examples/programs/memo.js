import { print } from "host";
const memo = {}; const f = n => n < 2 ? n : memo[n] !== undefined ? memo[n] : (memo[n] = f(n - 1) + f(n - 2)); print(f(60)); print(Object.keys(memo).length);
