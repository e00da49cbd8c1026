import { print } from "host";
Promise.reject(new TypeError("t")); Promise.reject(3); print("m");
