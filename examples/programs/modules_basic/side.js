import { print } from "host"; print("side");
