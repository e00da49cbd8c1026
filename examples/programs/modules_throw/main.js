import { print } from "host"; import "bad"; print("never");
