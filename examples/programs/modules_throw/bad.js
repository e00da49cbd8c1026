import { print } from "host"; print("bad"); throw new TypeError("in bad");
