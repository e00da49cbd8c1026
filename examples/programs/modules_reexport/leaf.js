export const one = 1, two = 2; const t = 3; export { t as three }; export default 4;
