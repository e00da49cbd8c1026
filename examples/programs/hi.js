import { print } from "host"; print("hi");
