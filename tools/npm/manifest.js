'use strict';
// Prints the package.json of the npm package, which says more than that of the repository:
//
//   node tools/npm/manifest.js PACKAGE.JSON VERSION
const fs = require('fs');

const [file, version] = process.argv.slice(2);
const own = JSON.parse(fs.readFileSync(file, 'utf8'));
const manifest = {
  ...own,
  version,
  bin: { nagdrez: 'bin/nagdrez.js' },
  main: './src/api/index.js',
  types: './index.d.ts',
  exports: { '.': { types: './index.d.ts', default: './src/api/index.js' }, './package.json': './package.json', './schemas/*.json': './schemas/*.json' },
  os: ['linux'],
  cpu: ['x64'],
  files: ['bin', 'src', 'errors', 'schemas', 'index.d.ts', 'SHA256', 'CHANGELOG.md'],
};
process.stdout.write(`${JSON.stringify(manifest, null, 2)}\n`);
