import { print } from "host"; import { f, x } from "other"; export function g() { return "g"; } export let y = 1; print(f() + x);
