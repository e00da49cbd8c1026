import { print } from "host";
const s = "Hello, World";
print(s.length); print(s[0] + s[4]); print(s[99]); print(s.charAt(1)); print(s.charAt(99) === ""); print(s.charCodeAt(0)); print(s.codePointAt(1)); print("\u{1F600}".length + "/" + "\u{1F600}".codePointAt(0)); print("\u{1F600}".codePointAt(1));
print(s.indexOf("o")); print(s.indexOf("o", 5)); print(s.indexOf("z")); print(s.indexOf("")); print(s.indexOf("", 99)); print(s.includes("World")); print(s.includes("world")); print(s.includes("H", 1)); print(s.startsWith("Hell")); print(s.startsWith("ell", 1)); print(s.endsWith("ld")); print(s.endsWith("Hello", 5));
print(s.slice(7)); print(s.slice(-5, -2)); print(s.slice(3, 1) === ""); print(s.substring(7, 4)); print(s.substring(-3, 2)); print(s.substring(5, 99));
print("ab".repeat(3)); print("x".repeat(0) === ""); print("5".padStart(3, "0")); print("5".padEnd(3, "ab") + "|"); print("abc".padStart(2)); print("7".padStart(4, "xy")); print("a".padEnd(3) + "|"); print("a".padEnd(3, "") + "|");
print("a,b,,c".split(",").join("|")); print("abc".split("").join("-")); print("abc".split().length); print("abc".split("z").join()); print("a,b,c".split(",", 2).join("|")); print("".split(",").length); print("".split("").length);
print("[" + "  \t\n x y \u00A0".trim() + "]"); print("abc".toString() + "abc".valueOf()); print(String(12) + String(null) + String(undefined) + String(true)); print(String.fromCharCode(72, 105)); print(String.fromCharCode()); print(String.fromCharCode(65536 + 65)); print(String() === ""); print("b" > "a" ? "gt" : "le");
print(typeof "abc"); print("a" + 1 + true + null + undefined); print(`${1}${"a"}${null}`); print("abc"["length"]); print("length" in Object("x".split("")));
