// Prints what `fast-check build` answers of each module: node client.js FAST-CHECK REQUEST.json
const { spawnSync } = require('child_process');

const [program, request] = process.argv.slice(2);
const { status, stdout, stderr } = spawnSync(program, ['build', request], { stdio: ['ignore', 'pipe', 'pipe'], maxBuffer: 1 << 30 });
if (status > 1) { // the request is refused, or memory ran out
  console.error(String(stderr).trim());
  process.exit(1);
}
for (const [specifier, { Ok, Err = [] }] of JSON.parse(stdout)) {
  for (const { code, message } of Err) console.log(`${specifier}: ${code}: ${message}`);
  if (Ok) console.log(`${specifier}: ${Ok.program.body.length} items`);
}
