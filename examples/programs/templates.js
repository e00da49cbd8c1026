import { print } from "host";
const n = 3, o = { toString() { return "obj"; } }; print(`a${n}b${n * 2}c`); print(`${o}`); print(`${`in${n}`}`); print(`line
two`); print(`\${n}`); print(`${""}${""}` === ""); print(`$`); print(`{${n}}`); print(`\u0041\x42\n|`); print(`${[1, 2]}`); print(`${null}${undefined}${true}`); print(typeof `1`); print(`a` + `b`);
