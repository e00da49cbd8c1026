import { print } from "host"; import { call } from "user"; export function late() { return "late"; } print(call());
