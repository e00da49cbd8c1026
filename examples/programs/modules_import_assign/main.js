import { print } from "host"; import { a } from "lib"; try { a = 2; } catch (e) { print(e.name); } try { (() => { a++; })(); } catch (e) { print(e.name); } print(a);
