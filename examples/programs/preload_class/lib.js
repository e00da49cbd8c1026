export class P { constructor() { P.made++; } } P.made = 0; new P();
