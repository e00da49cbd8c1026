import { print } from "host";
print("p");
export default "te" + "xt";
