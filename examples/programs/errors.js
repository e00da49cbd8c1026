import { print } from "host";
const e = new Error("m"); print(e.name + e.message + (e instanceof Error)); print(e + ""); print(Object.keys(e).length); print(Object.getOwnPropertyNames(new Error()).length);
print(new TypeError("t") + ""); print(RangeError("no new").message); print(new ReferenceError() + ""); print(new SyntaxError("s") instanceof Error); print(Object.getPrototypeOf(TypeError) === Error);
print(TypeError.prototype.name); print(Error.prototype.message === ""); print(Error.prototype.toString.call({ name: "N", message: "M" })); print(Error.prototype.toString.call({})); print(Error.prototype.toString.call({ name: "", message: "only" })); print(Error.prototype.toString.call({ message: "" }));
try { Error.prototype.toString.call(1); } catch (x) { print(x.name); } print(Error.length + TypeError.length + Error.name); print(new Error(undefined).hasOwnProperty("message")); print(new Error(5).message + 1); print(typeof new Error(5).message);
print(Object.getOwnPropertyDescriptor(e, "message").enumerable); print(Error.prototype.constructor === Error); print(Object.prototype.hasOwnProperty.call(RangeError.prototype, "message"));
