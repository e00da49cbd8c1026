import { print } from "host";
print(typeof undefined); print(typeof null); print(typeof true); print(typeof 1); print(typeof "s"); print(typeof {}); print(typeof []); print(typeof (() => 1)); print(typeof class {}); print(typeof notBound); print(typeof print); print(typeof typeof 1);
