import { print } from "host"; import "b"; import "c"; print("main");
