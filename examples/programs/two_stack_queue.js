import { print } from "host";
class Queue { constructor() { this.inbox = []; this.outbox = []; } put(x) { this.inbox.push(x); return this; } take() { if (this.outbox.length === 0) while (this.inbox.length > 0) this.outbox.push(this.inbox.pop()); return this.outbox.pop(); } get size() { return this.inbox.length + this.outbox.length; } }
const q = new Queue(); q.put(1).put(2).put(3); print(q.take()); q.put(4); print(q.take() + "" + q.take() + q.take()); print(q.take()); print(q.size);
