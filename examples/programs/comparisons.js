import { print } from "host";
print(1 < 2); print("a" < "b"); print("10" < "9"); print(10 < "9"); print("B" < "a"); print("a" <= "a"); print(2 >= 3); print("ab" > "a");
print(null >= 0); print(true < 2); print("" < "a");
print(1 == "1"); print(1 === "1"); print(null == undefined); print(null === undefined); print(null == 0); print("" == 0); print(true == "1");
print(1 != 2); print(1 !== 1); const o = {}; print(o === o); print({} === {}); print(o == "[object Object]");
