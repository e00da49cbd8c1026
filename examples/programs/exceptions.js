import { print } from "host";
try { throw 1; } catch (e) { print("c" + e); } finally { print("f"); }
try { print("t"); } finally { print("f2"); }
try { try { throw "in"; } finally { print("inner"); } } catch (e) { print(e); }
function f() { try { return "try"; } finally { print("leaving"); } } print(f());
function g() { try { return "try"; } finally { return "finally"; } } print(g());
function h() { try { throw 1; } catch { return "caught"; } finally { print("h"); } } print(h());
function k() { for (let i = 0; i < 3; i++) { try { if (i === 1) continue; if (i === 2) break; print("i" + i); } finally { print("fin" + i); } } return "done"; } print(k());
function m() { while (true) { try { return 1; } finally { break; } } return 2; } print(m());
function p() { try { try { return "a"; } finally { throw "b"; } } catch (e) { return "c" + e; } } print(p());
try { throw { message: "m" }; } catch (e) { print(e.message); }
const r = []; try { try { throw 1; } catch (e) { r.push(e); throw 2; } finally { r.push(3); } } catch (e) { r.push(e); } print(r.join());
