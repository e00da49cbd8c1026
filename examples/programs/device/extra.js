import { Thermo } from "sensor";
Thermo.prototype.label = function () { return "T" + this.id; };
