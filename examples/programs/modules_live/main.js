import { print } from "host"; import { n, inc, reset } from "count"; print(n); inc(); inc(); print(n); reset(9); print(n);
