const local = 1;
export { local as "quoted name" };
