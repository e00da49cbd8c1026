import { one } from "leaf"; export { one }; export { two, three as three, default as def } from "leaf";
