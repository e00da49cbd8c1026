import { print } from "host";
const n = 60, composite = []; const primes = []; for (let i = 2; i <= n; i++) { if (composite[i]) continue; primes.push(i); for (let j = i * i; j <= n; j += i) composite[j] = true; } print(primes.join(" ")); print(primes.length);
const gcd = (a, b) => b === 0 ? a : gcd(b, a % b); print(gcd(48, 36)); const pow = (b, e, m) => { let r = 1; b %= m; while (e > 0) { if (e & 1) r = r * b % m; e >>= 1; b = b * b % m; } return r; }; print(pow(3, 200, 13)); print(pow(2, 30, 1000007));
const hanoi = (k, a, b, c) => k === 0 ? 0 : hanoi(k - 1, a, c, b) + 1 + hanoi(k - 1, c, b, a); print(hanoi(6, "a", "b", "c")); const collatz = k => { let t = 0; while (k !== 1) { k = k % 2 ? 3 * k + 1 : k / 2; t++; } return t; }; print(collatz(27));
