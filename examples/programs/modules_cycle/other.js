import { print } from "host"; import { g, y } from "main"; export function f() { return "f" + g(); } export const x = 5; try { print(y); } catch (e) { print(e.name); }
