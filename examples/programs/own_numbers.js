import { print } from "host";
const tries = [() => 7 / 2, () => -4 % 2, () => 0 * -1, () => 2 ** 60, () => Number("1e3"), () => 1 / 0, () => 9007199254740991 + 1, () => -0, () => undefined + 1, () => Number("x"), () => +"1.5", () => 5 % 0, () => 2 ** -1, () => Math.max(), () => "abc".charCodeAt(3), () => parseInt("z")];
for (let i = 0; i < tries.length; i++) { try { print(tries[i]()); } catch (e) { print(i + " " + e); } }
print(6 / 2); print(-9 / 3); print(1 ** -1); print(0 / 5); print(Number("  ")); print(Number("0x10"));
