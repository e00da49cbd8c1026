import { print } from "host";
function sign(n) { if (n > 0) return "plus"; else if (n < 0) return "minus"; else return "zero"; }
print(sign(3)); print(sign(-3)); print(sign(0));
if (0) print("no"); else print("else");
if (1) { } else print("never");
if (1) if (0) print("a"); else print("b");
