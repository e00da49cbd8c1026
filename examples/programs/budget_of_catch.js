import { print } from "host";
function deep(n) { try { return deep(n + 1); } catch (e) { print("caught"); } finally { print("fin"); } }
print("start"); deep(0);
