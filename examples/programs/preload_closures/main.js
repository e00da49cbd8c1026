import { print } from "host"; import { fs } from "lib"; print(fs[0]() + "," + fs[1]() + "," + fs[2]());
