import { print } from "host";
let calls = "";
const t = n => { calls += n; return true; };
const f = n => { calls += n; return false; };
print(t(1) && f(2)); print(f(3) && t(4)); print(t(5) || f(6)); print(f(7) || t(8)); print(calls);
print(null ?? "d"); print(undefined ?? "d"); print(0 ?? "d"); print("" || "e"); print(0 && 1); print("a" && "b");
print(!0); print(!"a"); print(!!{}); print(1 ? "y" : "n"); print("" ? "y" : null ? "m" : "n");
print((1, 2, 3)); print(void 0); print(f(9) ? 1 : (t("x"), 2)); print(calls);
