import { print } from "host";
const registry = {}; class Base { static register(k) { registry[k.name] = k; return k; } static make(n) { return new registry[n](n); } constructor(t) { this.t = t; } hello() { return `${this.constructor.name}:${this.t}`; } }
const A = Base.register(class A extends Base { hello() { return "A-" + super.hello(); } }); Base.register(class B extends A { constructor(t) { super(t + "!"); } }); print(Base.make("A").hello()); print(Base.make("B").hello()); try { Base.make("C"); } catch (e) { print(e.name); } print(Object.keys(registry).join());
