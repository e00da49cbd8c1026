import { print } from "host";
let t = ""; for (let i = 0; i < 30; i++) { if (i % 15 === 0) t += "FizzBuzz"; else if (i % 5 === 0) t += "Buzz"; else if (i % 3 === 0) t += "Fizz"; else t += i; t += i % 10 === 9 ? "\n" : " "; } print(t.slice(0, -1));
