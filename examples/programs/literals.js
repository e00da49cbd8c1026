import { print } from "host";
print(0); print(0x1F); print(0o17); print(0b101); print(9007199254740991);
print("a\tb"); print('it\'s'); print("\x41\u0042\u{43}"); print(`t${1 + 1}u`); print("");
print(true); print(false); print(null); print(undefined);
print([1, 2, 3].join("-")); print({ a: 1 }.a);
