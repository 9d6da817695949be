// Compares what ESLint finds in files with node/ as its parser with what it finds with its own.
//
//     node tests/bindings/eslint.js FILE ..
//
// All rules of ESLint are on, as they are without options. Prints the files in which other things are found, and how many findings are the same. Status 1 if there are such
// files. node needs its package eslint (NODE_PATH=/usr/share/nodejs); ECMA_NODE is the folder of the built package.
'use strict';
const fs = require('fs');
const path = require('path');
const { CLIEngine, Linter } = require('eslint');

const rules = Object.fromEntries([...new Linter().getRules().keys()].map(rule => [rule, 2]));
const engine = parser =>
  new CLIEngine({ useEslintrc: false, allowInlineConfig: false, ignore: false, rules, parser, parserOptions: { ecmaVersion: 2020 } });
const ours = engine(path.resolve(process.env.ECMA_NODE || path.join(__dirname, '../../node')));
const theirs = engine(undefined);

function found(cli, text, name) {
  const [result] = cli.executeOnText(text, path.basename(name)).results;
  return result.messages.map(({ ruleId, line, column, endLine, endColumn, message, fatal }) =>
    fatal ? `fatal ${line}` : [ruleId, line, column, endLine, endColumn, message].join(' '),
  );
}

const count = { same: 0, fatal: 0, other: 0 };
for (const file of process.argv.slice(2)) {
  const text = fs.readFileSync(file, 'utf8');
  const [first, second] = [found(ours, text, file), found(theirs, text, file)];
  const isFatal = list => list.length === 1 && list[0].startsWith('fatal');
  if (isFatal(first) && isFatal(second)) {
    count.fatal += 1;
  } else if (first.join('\n') === second.join('\n')) {
    count.same += first.length;
  } else {
    count.other += 1;
    const only = (list, other) => list.filter(line => !other.includes(line)).slice(0, 2);
    console.log(`${file}: ${JSON.stringify({ ours: only(first, second), theirs: only(second, first) })}`);
  }
}
console.log(`${count.same} findings are the same; in ${count.other} files there are others; ${count.fatal} files are refused by both`);
process.exit(count.other > 0 ? 1 : 0);
