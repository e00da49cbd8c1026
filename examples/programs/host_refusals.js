import { print } from "host";
const t = f => { try { return f(); } catch (e) { return e.name + ": " + e.message; } };
print(t(() => print({}))); print(t(() => print([]))); print(t(() => print(print))); print(t(() => print("x"))); print(t(() => print())); print(t(() => print(1, 2))); print(print("r")); print(t(() => new print("n"))); print("\u{1F600}"); print("\uD83D!");
