import { print } from "host";
function f(x) { let s = ""; switch (x) { case 1: s += "one"; case 2: s += "two"; break; default: s += "def"; case 3: s += "three"; } return s; }
print(f(1)); print(f(2)); print(f(3)); print(f(4)); print(f("1"));
switch (3) { } switch (1) { case 2: print("no"); }
switch (2) { case 1: let a = 1; break; case 2: a = 5; print(a); default: }
