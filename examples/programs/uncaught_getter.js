class E extends Error { get message() { return "hidden"; } }
throw new E("shown");
