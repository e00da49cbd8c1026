import { print } from "host";
function f(n) { if (n === 0) return 0; return f(n - 1); }
try { print(f(128)); } catch (e) { print("caught"); } finally { print("finally"); }
