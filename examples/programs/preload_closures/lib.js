const fs = []; for (let i = 0; i < 3; i = i + 1) fs.push(() => i); export { fs };
