import { print } from "host"; import "d"; print("c");
