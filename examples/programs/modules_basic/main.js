import { print } from "host"; import d, { a, b as c } from "lib"; import "side"; print(a + c + d); export default a;
