// Runs the five tools of docs/GUIDE.md on files, and compares what they print with what acorn, eslint-scope and JavaScript say.
//
//     node tests/tools.js [--count N] FOLDER     the first N scripts in a folder and those below it, 100 if no number is given
//
// The programs are those of crates/TOOL/out, or are built without a proof (tests/unproved.sh). Status 1 where anything differs. Node needs its packages acorn
// and eslint-scope.
'use strict';

const { execFileSync, spawnSync } = require('child_process');
const { existsSync, readFileSync, readdirSync } = require('fs');
const path = require('path');

// Where Debian has them.
process.env.NODE_PATH = [process.env.NODE_PATH, '/usr/share/nodejs'].filter(Boolean).join(':');
require('module').Module._initPaths();
const acorn = require('acorn');
const scopes = require('eslint-scope');

const TOP = path.resolve(__dirname, '..');
const OPTIONS = { ecmaVersion: 2021, sourceType: 'script', locations: true, ranges: true };
const PAIRS = /\\u\{([0-9a-f]+)\}/g;

let differing = 0;

function program(tool) {
  const proved = path.join(TOP, 'crates', tool, 'out', tool);
  return existsSync(proved) ? proved : execFileSync(path.join(TOP, 'tests/unproved.sh'), [tool], { encoding: 'utf8' }).trim();
}

function run(tool, text, args = []) {
  const { stdout, stderr, status } = spawnSync(program(tool), args, { input: text, encoding: 'utf8', maxBuffer: 1 << 28 });
  return { stdout, stderr: stderr.replace(/^not proved.*\n/, ''), status };
}

function compare(what, file, expected, found) {
  if (expected === found) {
    return true;
  }
  differing += 1;
  const at = [...expected].findIndex((letter, index) => letter !== found[index]);
  console.log(`${what} ${file}: at ${at}: ${JSON.stringify(expected.slice(at, at + 60))}, but it printed ${JSON.stringify(found.slice(at, at + 60))}`);
  return false;
}

/** All files below a folder that acorn reads as scripts. */
function* scriptsIn(folder) {
  for (const entry of readdirSync(folder, { withFileTypes: true }).sort((a, b) => (a.name < b.name ? -1 : 1))) {
    const file = path.join(folder, entry.name);
    if (entry.isDirectory()) {
      yield* scriptsIn(file);
    } else if (entry.isFile() && /\.c?js$/.test(file)) {
      const text = readFileSync(file, 'utf8');
      try {
        yield { file, text, tree: acorn.parse(text, OPTIONS) };
      } catch (fault) {
        // It is no script.
      }
    }
  }
}

/** What a literal that Rust writes for a text means. */
function unquoted(text) {
  const inside = text.slice(1, -1).replace(PAIRS, (_, code) => String.fromCodePoint(parseInt(code, 16)));
  return inside.replace(/\\([\\nrt0'"])/g, (_, letter) => ({ n: '\n', r: '\r', t: '\t', 0: '\0' })[letter] || letter);
}

function findStrings({ file, text }) {
  const expected = [];
  for (const token of acorn.tokenizer(text, OPTIONS)) {
    if (token.type === acorn.tokTypes.string) {
      expected.push(`${token.loc.start.line}:${token.loc.start.column + 1} ${JSON.stringify(token.value)}`);
    }
  }
  const lines = run('find_strings', text).stdout.split('\n').slice(0, -1);
  const found = lines.map(line => line.replace(/^(\S+) (".*")$/s, (_, place, value) => `${place} ${JSON.stringify(unquoted(value))}`));
  compare('find_strings', file, expected.join('\n'), found.join('\n'));
}

function walk(node, visit) {
  if (node && typeof node.type === 'string') {
    if (visit(node) !== false) {
      Object.values(node).flat().forEach(part => walk(part, visit));
    }
  }
}

const OPERATORS = new Set(['+', '-', '*', '/', '<', '>', '===', '!==', '&&', '||']);

/** Whether an expression is one of constants and operators that the evaluator has. */
function isConstant(node) {
  switch (node.type) {
    case 'Literal': return ['number', 'string', 'boolean'].includes(typeof node.value);
    case 'UnaryExpression': return ['!', '-', '+'].includes(node.operator) && isConstant(node.argument);
    case 'BinaryExpression': case 'LogicalExpression':
      return OPERATORS.has(node.operator) && isConstant(node.left) && isConstant(node.right);
    case 'ConditionalExpression': return [node.test, node.consequent, node.alternate].every(isConstant);
    default: return false;
  }
}

function evaluate({ file, text, tree }) {
  const expressions = new Set();
  walk(tree, node => {
    if (isConstant(node) && expressions.size < 12) {
      expressions.add(text.slice(node.start, node.end));
      return false;
    }
    return true;
  });
  let known = 0;
  for (const expression of expressions) {
    const found = run('evaluate', expression).stdout;
    if (found !== 'no constant\n') {
      known += compare('evaluate', file, `${String((0, eval)(`(${expression})`))}\n`, found);
    }
  }
  if (known * 10 < expressions.size * 9) {
    compare('evaluate', file, `${expressions.size} values`, `${known} values`);
  }
}

/** The identifiers that mean the same as the first in the text that is bound to a variable. */
function firstVariable(tree) {
  const known = new Map();
  const add = (identifier, variable) => known.set(identifier.start, { identifier, variable });
  const { scopes: all, globalScope } = scopes.analyze(tree, { ecmaVersion: 2020, sourceType: 'script', ignoreEval: true });
  // It leaves open what a script's own functions and variables are.
  for (const { identifier } of globalScope.through) {
    const variable = globalScope.set.get(identifier.name);
    if (variable && variable.identifiers.length) {
      add(identifier, variable.identifiers[0]);
    }
  }
  for (const scope of all) {
    for (const variable of scope.variables) {
      variable.identifiers.forEach(identifier => add(identifier, variable.identifiers[0]));
    }
    for (const reference of scope.references) {
      if (reference.resolved && reference.resolved.identifiers.length) {
        add(reference.identifier, reference.resolved.identifiers[0]);
      }
    }
  }
  const found = [...known.values()].sort((a, b) => a.identifier.start - b.identifier.start);
  return found.length ? found.filter(({ variable }) => variable === found[0].variable).map(({ identifier }) => identifier) : [];
}

function renameName({ file, text, tree }) {
  const identifiers = firstVariable(tree);
  if (!identifiers.length || /\b(with|eval)\b/.test(text)) {
    return;
  }
  const shorthands = new Set();
  walk(tree, node => {
    if (node.type === 'Property' && node.shorthand) {
      shorthands.add(node.start);
    }
    return true;
  });
  let [expected, at] = ['', 0];
  for (const { start, end, name } of identifiers) {
    expected += text.slice(at, start) + (shorthands.has(start) ? `${name}: fresh_name` : 'fresh_name');
    at = end;
  }
  compare('rename_name', file, expected + text.slice(at), run('rename_name', text, [identifiers[0].name, 'fresh_name']).stdout);
}

function fillTemplate({ file, text }) {
  const strings = [...acorn.tokenizer(text, OPTIONS)].filter(token => token.type === acorn.tokTypes.string).slice(0, 20);
  let [template, expected, at] = ['', '', 0];
  const plain = part => part.replace(/\{\{/g, '\\{{').replace(/\\+(?=\{\{)/g, slashes => slashes.slice(0, 1));
  for (const token of strings) {
    const before = text.slice(at, token.start).replace(/\\+\{\{/g, '{{');
    if (/\\$|\{$/.test(before) || /[\uD800-\uDFFF]/.test(token.value)) {
      return;
    }
    template += `${plain(before)}{{ (none || ${text.slice(token.start, token.end)}) + name }}`;
    expected += `${before}${token.value}Ann`;
    at = token.end;
  }
  compare('fill_template', file, expected, run('fill_template', template, ['name=Ann']).stdout);
}

function countBodies({ file, text }) {
  const expression = `[class { m() { a } }, async () => { b }, function () {${text}\n}]`;
  let tokens = 0;
  for (const token of acorn.tokenizer(expression, OPTIONS)) {
    // `#a` and `?.` are two tokens.
    tokens += ['privateId', '?.'].includes(token.type.label) ? 2 : 1;
  }
  compare('count_bodies', file, `${tokens} tokens, 1 functions, 1 classes, 1 blocks\n`, run('count_bodies', expression).stdout);
}

function main(words) {
  const count = words[0] === '--count' ? Number(words.splice(0, 2)[1]) : 100;
  let files = 0;
  for (const script of scriptsIn(words[0])) {
    if (files >= count) {
      break;
    }
    files += 1;
    [findStrings, evaluate, renameName, fillTemplate, countBodies].forEach(check => check(script));
  }
  console.log(`${files} files, ${differing} answers apart`);
  return differing || !files ? 1 : 0;
}

process.exitCode = main(process.argv.slice(2));
