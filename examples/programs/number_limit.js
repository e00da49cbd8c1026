import { print } from "host"; print(9007199254740991 + 1);
