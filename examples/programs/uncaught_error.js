import { print } from "host";
print("before");
throw new RangeError("too far");
