'use strict';
// The words of the command line.
const fs = require('fs');
const path = require('path');
const { test } = require('node:test');
const { run, same, holds, withFolder, PACKAGES, TOP } = require('./support/helpers.js');

/** @type {[words: string[], said: string][]} */
const WRONG = [
  [[], 'no command is given'],
  [['nothing'], 'there is no command nothing'],
  [['chekc', 'variables'], 'there is no command chekc; did you mean check?'],
  [['check', '--formt', 'json'], 'there is no option --formt; did you mean --format?'],
  [['check', '--format', 'sarf', 'variables'], 'did you mean sarif?'],
  [['check', '--allow', 'missing-explicit-typ', 'variables'], 'did you mean missing-explicit-type?'],
  [['help', 'chek'], 'did you mean check?'],
  [['check', '-x'], 'there is no option -x'],
  [['skeleton', 'a', 'b', 'c'], 'skeleton does not take the word c'],
  [['check', 'nowhere'], 'there is no folder and no file nowhere'],
  [['check', 'variables', 'nowhere'], 'there is no folder and no file nowhere'],
  [['check', '/dev/null'], '/dev/null is no regular file'],
  [['skeleton', 'variables/mod.ts'], 'variables/mod.ts is no folder'],
  [['check', '--format', 'xml', 'variables'], 'there is no format xml'],
  [['check', '--json', '--format', 'sarif', 'variables'], '--format sarif is asked for too'],
  [['check', '--watch', '--format', 'junit', 'variables'], '--watch does not go with --format junit'],
  [['check', '--max-warnings', 'many', 'variables'], '--max-warnings wants a number'],
  [['check', '--allow', 'slow', 'variables'], 'there is no code slow'],
  [['check', '--allow', 'syntax-error', 'variables'], 'syntax-error cannot be allowed'],
  [['check', '--baseline', 'nowhere', 'variables'], 'nowhere'],
  [['check', '--baseline', 'variables/mod.ts', 'variables'], 'variables/mod.ts:1 is no JSON'],
  [['check', '--watch=yes', 'variables'], '--watch takes no value'],
  [['check', '--name', 'a', 'variables', 'classes'], 'are of one package'],
  [['check', '--exports', './mod.ts', 'variables/mod.ts'], '--exports goes with a folder'],
  [['fix', '--watch', 'variables'], '--watch is not for fix'],
  [['toString', '--help'], 'there is no command toString'],
  [['check', '--fast', 'variables'], 'there is no option --fast'],
  [['check', 'variables', '--name'], '--name wants a value'],
  [['skeleton', '--verify', 'variables'], '--verify is not for skeleton'],
  [['check', '--rules', 'jsr', 'variables'], 'there are no rules jsr: deno'],
  [['skeleton', '--list-externals', 'variables'], '--list-externals is not for skeleton'],
  [['check', '--exports', '{', 'variables'], '--exports is no JSON'],
  [['skeleton', 'variables', 'variables'], 'variables is the package itself'],
  [['diff', 'variables'], 'diff wants two words'],
];

for (const [words, wanted] of WRONG) {
  test(`words: ${words.join(' ')}`, async () => {
    const { status, out, err } = await run(words);
    same(status, 2, 'the status');
    same(out, '', 'standard output');
    holds(err.includes(wanted), err);
  });
}
test('--help', async () => holds((await run(['--help'])).out.startsWith('usage: fast-check-ts COMMAND'), 'the usage comes'));
for (const command of ['check', 'fix', 'skeleton', 'input', 'diff', 'report']) {
  test(`${command} --help`, async () => {
    const { status, out } = await run([command, '--help']);
    same(status, 0, 'the status');
    holds(out.startsWith(`usage: fast-check-ts ${command} [OPTION ..]`) && out.includes('\nexample:\n  fast-check-ts'), out);
    same(out.includes('--watch'), command === 'check', 'whether --watch is named');
  });
}
test('the version of package.json', () => same(require('../package.json').version, fs.readFileSync(path.join(TOP, 'VERSION'), 'utf8').trim()));
test('help COMMAND', async () => same((await run(['help', 'check'])).out, (await run(['check', '--help'])).out));
test('help', async () => same((await run(['help'])).out, (await run(['--help'])).out));
test('check without a folder', async () => {
  const [here, there] = [await run(['check'], { cwd: path.join(PACKAGES, 'javascript-entry') }), await run(['check', '.'], { cwd: path.join(PACKAGES, 'javascript-entry') })];
  same(here.out, there.out);
  holds(here.out.includes('warning['), here.out);
});
test('check --quiet', async () => {
  same((await run(['check', '-q', 'javascript-entry'])).out, '', 'what is reported of warnings');
  const { out, status } = await run(['check', '--quiet', 'missing-return-type']);
  holds(status === 1 && out.includes('error[') && !/slow types|messages?,|warning/.test(out), out);
});
test('fix --dry-run', async () => {
  const [one, other] = [await run(['fix', '--dry-run', 'fixed']), await run(['fix', '--dry', 'fixed'])];
  same(one.out.replaceAll('tools/typescript/test/packages/', ''), other.out.replaceAll('tools/typescript/test/packages/', ''));
  holds(one.out.includes('--- a/'), one.out);
});
test('--version', async () => same((await run(['--version'])).out, `fast-check-ts ${fs.readFileSync(path.join(TOP, 'VERSION'), 'utf8')}`));
test('--json gives an object a line', async () => {
  const { status, out } = await run(['check', '--json', 'missing-return-type']);
  const lines = out.trimEnd().split('\n').map((line) => JSON.parse(line));
  same(status, 1, 'the status');
  holds(lines.every((each) => each.code && each.file.endsWith('mod.ts') && each.line > 0 && each.column > 0), out);
});
test('--json reports errors of reading too', async () => {
  const { status, out } = await run(['check', '--json', 'syntax-error']);
  same(status, 2, 'the status');
  same(JSON.parse(out.split('\n')[0]).code, 'syntax-error');
});
test('--list-externals names what is not followed', async () => {
  const { out } = await run(['check', '--list-externals', 'outside-names']);
  holds(out.includes('not followed: node:events (outside-names/mod.ts:1)\nnot followed: side-effect (outside-names/mod.ts:3)\nnot followed: zod (outside-names/mod.ts:2)\n'), out);
  const json = await run(['check', '--json', '--list-externals', 'outside-names']);
  same(json.out.split('\n')[0], '{"external":"node:events","imports":[{"text":"node:events","file":"outside-names/mod.ts","line":1,"column":30}]}');
});
test('colours on a terminal, and none where they are not wanted', async () => {
  const escape = '\x1b[';
  holds((await run(['check', 'missing-type'], { isTTY: true })).out.includes(escape), 'a terminal has colours');
  holds(!(await run(['check', 'missing-type'])).out.includes(escape), 'a pipe has none');
  holds(!(await run(['check', 'missing-type'], { isTTY: true, environment: { NO_COLOR: '1' } })).out.includes(escape), 'NO_COLOR is obeyed');
  holds(!(await run(['check', 'missing-type', '--no-color'], { isTTY: true })).out.includes(escape), '--no-color is obeyed');
});
test('name, version and exports of the command line', async () => {
  const { request } = JSON.parse(`{"request":${(await run(['input', 're-exports', '--name', '@a/b', '--version=2.0.1', '--exports', '{"./s":"./shapes.ts"}'])).out}}`);
  same(JSON.stringify(request.pending), '["@a/b@2.0.1"]');
  const [{ name, version, exports }] = request.workspace_members;
  same(JSON.stringify([name, version, exports]), '["@a/b","2.0.1",[["./s","./shapes.ts"]]]');
});
test('skeletons are written to a folder, and are a package again', () => withFolder(async (folder) => {
  const out = path.join(folder, 'out');
  same((await run(['skeleton', 're-exports', out])).status, 0, 'the status');
  same(fs.readdirSync(out).join(' '), 'mod.ts shapes.ts');
  const { status, err } = await run(['check', out]);
  same(status, 0, `the status of the skeletons' own check (${err})`);
  same((await run(['skeleton', 're-exports', out])).status, 0, 'the status where the folder has them already');
  same((await run(['skeleton', 're-exports', path.join(out, 'a', 'b')])).status, 0, 'the status where folders above are made');
}));
for (const out of ['/proc/nowhere/out', '/dev/null']) {
  test(`skeletons that cannot be written to ${out}`, async () => {
    const { status, err } = await run(['skeleton', 're-exports', out]);
    same(status, 2, 'the status');
    holds(err.includes(path.dirname(out)), err);
  });
}
