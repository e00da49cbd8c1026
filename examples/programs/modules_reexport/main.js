import { print } from "host"; import { two, three, def, one } from "hub"; print(one + two + three + def);
