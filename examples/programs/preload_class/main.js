import { print } from "host"; import { P } from "lib"; P.prototype.greet = function () { return "hi"; }; print(new P().greet() + P.made);
