// Asks `ecma check`, acorn and V8 of files in which a token was left out, put in, replaced or put elsewhere. Run by hand.
//
//     node --experimental-vm-modules tests/mutated_files.js PROGRAM COUNT SEED FOLDER ..
//
// PROGRAM is a built `ecma`. Files of up to 6,000 characters of the folders are taken, each in turn as what it is: a module, or a CommonJS module. Prints how many
// mutants each of the three takes, and each on which acorn and V8 agree and `ecma` differs, but for `let =>`, which
// docs/DIFFERENCES.md lists; status 1 if there are any.
'use strict';
const fs = require('fs');
const os = require('os');
const path = require('path');
const vm = require('vm');
const { spawnSync } = require('child_process');
const { acorn } = require('./acorn.js');

const LONGEST = 6000;
const AT_ONCE = 200;
const LISTED = /\blet\s*=>/;
const WORDS = [
  'let', 'const', 'var', 'function', 'async', 'await', 'yield', 'static', 'get', 'set', 'super', 'this', 'arguments', 'eval', 'new.target', 'class A {}',
  'function f() {}', '"use strict";', 'a', '#a', 'constructor', 'prototype', '__proto__', 'break;', 'continue;', 'return;', 'a:', 'let a;', 'var a;', 'delete a',
  '{', '}', '(', ')', '[', ']', '(a, a) => 1', '=>', '...', '*', 'import a from "b";', 'export {a};', 'with (a) b;', '010', '"\\01"', 'default', 'case 1:', 'if (a)',
  'while (a)', 'for (let a of b)', 'label: ', 'implements', '/(/', '/(?<a>b)/u', '`a`', '?.', '??', '**', '=', ',', ';',
];

const [program, count, seed, ...folders] = process.argv.slice(2);
let state = Number(seed);
/** A number below another one. */
function below(n) {
  state = (Math.imul(state, 1664525) + 1013904223) >>> 0;
  return Math.floor((state / 4294967296) * n);
}

/** All files of a folder that are programs. */
function* filesOf(folder) {
  for (const entry of fs.readdirSync(folder, { withFileTypes: true })) {
    const name = path.join(folder, entry.name);
    if (entry.isDirectory()) yield* filesOf(name);
    else if (/\.[cm]?js$/.test(entry.name)) yield name;
  }
}

function optionsOf(goal) {
  return { ecmaVersion: 'latest', sourceType: goal === 'module' ? 'module' : 'script', allowReturnOutsideFunction: goal === 'commonjs', allowHashBang: true };
}

/** What acorn says of a text that it refuses. */
function saysAcorn(goal, text) {
  try {
    acorn.parse(text, optionsOf(goal));
    return null;
  } catch (error) {
    return error.message;
  }
}

function saysV8(goal, text) {
  try {
    if (goal === 'module') new vm.SourceTextModule(text);
    else new Function(text);
    return null;
  } catch (error) {
    return error.message;
  }
}

/** The files that both take, with their tokens. */
function readFiles() {
  const found = [];
  for (const folder of folders) {
    for (const name of filesOf(folder)) {
      const text = fs.readFileSync(name, 'utf8').replace(/^#!.*/, '');
      if (text.length > LONGEST || /<!--|-->/.test(text)) continue;
      const goal = ['commonjs', 'module'].find((own) => saysAcorn(own, text) === null && saysV8(own, text) === null);
      if (!goal) continue;
      const tokens = [];
      acorn.parse(text, { ...optionsOf(goal), onToken: tokens });
      if (tokens.length > 2) found.push({ goal, text, tokens: tokens.filter((token) => token.end > token.start) });
    }
  }
  return found;
}

/** A text with one token changed. */
function mutantOf({ goal, text, tokens }) {
  const { start, end } = tokens[below(tokens.length)];
  const other = tokens[below(tokens.length)];
  const word = WORDS[below(WORDS.length)];
  const put = [`${' '}`, ` ${word} `, ` ${word} ${text.slice(start, end)}`, ` ${text.slice(other.start, other.end)} ${text.slice(start, end)}`][below(4)];
  return { goal, text: text.slice(0, start) + put + text.slice(end) };
}

/** What `ecma check` says of each file that it refuses. */
function toldOf(folder, mutants) {
  const told = new Map();
  for (const goal of ['module', 'commonjs']) {
    const names = mutants.flatMap((mutant, index) => (mutant.goal === goal ? [`${index}.js`] : []));
    if (names.length === 0) continue;
    for (const name of names) fs.writeFileSync(path.join(folder, name), mutants[parseInt(name, 10)].text);
    const run = spawnSync(program, ['check', '--json', '--max', '1', `--${goal}`, ...names], { cwd: folder, encoding: 'utf8', maxBuffer: 1 << 28 });
    if (run.status > 1 || run.signal) throw new Error(`${program}: ${run.status ?? run.signal}: ${run.stderr}`);
    for (const line of run.stdout.split('\n').filter((text) => text !== '')) {
      const fault = JSON.parse(line);
      if (fault.message) told.set(parseInt(fault.file, 10), fault.message);
    }
  }
  return told;
}

const files = readFiles();
const folder = fs.mkdtempSync(path.join(os.tmpdir(), 'mutants-'));
const taken = { ecma: 0, acorn: 0, V8: 0 };
const apart = [];
for (let left = Number(count); left > 0; left -= AT_ONCE) {
  const mutants = Array.from({ length: Math.min(left, AT_ONCE) }, () => mutantOf(files[below(files.length)]));
  const told = toldOf(folder, mutants);
  mutants.forEach(({ goal, text }, index) => {
    const here = told.get(index) ?? null;
    const byAcorn = saysAcorn(goal, text);
    const byV8 = saysV8(goal, text);
    taken.ecma += here === null;
    taken.acorn += byAcorn === null;
    taken.V8 += byV8 === null;
    if ((byAcorn === null) === (byV8 === null) && (here === null) !== (byV8 === null) && !LISTED.test(text)) apart.push({ goal, text, here, byAcorn, byV8 });
  });
}
fs.rmSync(folder, { recursive: true });
console.log(`${files.length} files, ${count} mutants; taken: ${JSON.stringify(taken)}; apart: ${apart.length}`);
for (const { goal, text, here, byAcorn, byV8 } of apart) {
  const name = path.join(os.tmpdir(), `apart-${apart.findIndex((one) => one.text === text)}.js`);
  fs.writeFileSync(name, text);
  console.log(`${name} (${goal}): ${here ?? 'taken'} / acorn: ${byAcorn ?? 'taken'} / V8: ${byV8 ?? 'taken'}`);
}
process.exitCode = apart.length ? 1 : 0;
