export class Sensor {
  constructor(id, scale) { this.id = id; this.scale = scale; }
  read(raw) { return raw * this.scale; }
}
export class Thermo extends Sensor {
  constructor(id, base) { super(id, 5); this.base = base; }
  read(raw) { return super.read(raw) + this.base; }
}
