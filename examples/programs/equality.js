import { print } from "host";
const o = { valueOf() { return 1; } }; const rows = [[null, undefined], [null, 0], [undefined, ""], ["1", 1], ["", 0], [true, 1], [false, "0"], ["a", "a"], [o, 1], [o, "1"], [o, true], [o, o], ["1", true]];
print(rows.map(r => r[0] == r[1] ? "t" : "f").join("")); print(rows.map(r => r[0] === r[1] ? "t" : "f").join("")); print(rows.map(r => r[0] != r[1] ? "t" : "f").join(""));
print(Object.is(o, o)); print([1, 2].includes(2)); print(["x"].indexOf("x"));
