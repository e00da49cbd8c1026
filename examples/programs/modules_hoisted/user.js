import { late } from "main"; import { print } from "host"; print(late()); export const call = () => late() + "!";
