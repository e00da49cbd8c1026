import { print } from "host";
function f(n) { if (n === 0) return 0; return f(n - 1); }
print(f(127));
