import { print } from "host";
print(5 & 3); print(5 | 3); print(5 ^ 3); print(~5); print(1 << 31); print(1 << 32); print(-1 >> 1); print(-1 >>> 0); print(-1 >>> 28);
print(4294967296 | 0); print(4294967295 | 0); print(6442450944 >> 1); print(~~"7"); print(3 & "x".length);
let a = 6; a &= 3; print(a); a |= 8; print(a); a ^= 15; print(a); a <<= 4; print(a); a >>= 2; print(a); a >>>= 1; print(a);
