import { print } from "host"; import { f } from "lib"; try { f.push(3); } catch (e) { print(e.name); } print(f.length);
