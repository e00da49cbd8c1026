import { print } from "host"; import { inc } from "lib"; print(inc()); print(inc());
