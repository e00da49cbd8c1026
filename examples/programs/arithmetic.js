import { print } from "host";
print(2 + 3 * 4 - 6 / 2); print(17 % 5); print(-17 % 5); print(2 ** 10); print((-2) ** 3); print(0 ** 0);
print(2 ** 3 ** 2); print(-(3 - 5)); print(+"12" + +" 3 "); print("3" * "4"); print("10" - 1); print("1" + 2 + 3); print(1 + 2 + "3");
print(true + true); print(null + 1); print("" * 1); print(7 - -7); print(1 - 2 - 3);
