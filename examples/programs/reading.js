import { print, read } from "host";
print(read.length + read.name + print.length + print.name); for (let s = read(); s !== null; s = read()) print("[" + s + "]"); print(read()); print(read());
