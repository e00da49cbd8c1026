import { print, read } from "host";
import { Thermo } from "sensor";
import { base } from "table";
import { line } from "format";
import "extra";
const t = new Thermo(1, base[1]);
let n = 0;
for (let s = read(); s !== null; s = read()) {
  print(line(t.label(), n, t.read(Number(s))));
  n = n + 1;
}
