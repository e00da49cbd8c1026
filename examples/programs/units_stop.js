import { print } from "host";
const big = "x".repeat(1048576); let n = 0; print("go");
try { for (;;) { big + ""; n++; print(n); } } catch (e) { print("caught"); } finally { print("finally"); }
