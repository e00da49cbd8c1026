throw { name: "N", message: "M" };
