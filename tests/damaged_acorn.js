// Damages files, and compares the line on which `ecma check` tells the damage with acorn's and V8's. Run by hand.
//
//     node tests/damaged_acorn.js PROGRAM FOLDER [COUNT]     without: 700 files
//
// The files are scripts below the folder of 800 to 12,000 bytes. In each a bracket, a comma, a semicolon, a quote or an operator is taken away, a keyword
// misspelt or a token doubled, by the same choice on each run, so that acorn refuses it. Prints for each kind of damage in how many files it is told on its
// line or the next, by each of the three.
'use strict';
const fs = require('fs');
const os = require('os');
const path = require('path');
const vm = require('vm');
const { spawnSync } = require('child_process');
const { acorn } = require('./acorn.js');

const OPTIONS = { ecmaVersion: 2024, sourceType: 'script' };
const KEYWORD = /^(function|return|const|let|var|if|else|for|while|switch|case|break|class|new|typeof|try|catch|throw|default|delete|extends|static|async|await|of|in|this|null)$/;
const OPERATOR = /^(=|\+|-|\*|==|===|&&|\|\||\?|=>|\.|<|>)$/;
const BRACKETS = ['(', ')', '[', ']', '{', '}', ',', ';'];

let seed = 7;
/** A number below another, the same on each run. */
function choose(limit) {
  seed = (seed * 1103515245 + 12345) & 0x7fffffff;
  return Math.floor((seed / 0x80000000) * limit);
}

function swapped(word) {
  const at = 1 + choose(word.length - 2);
  return word.slice(0, at) + word[at + 1] + word[at] + word.slice(at + 2);
}

/** Kinds of damage: which tokens it is done to, and what a token becomes. */
const KINDS = [
  ...BRACKETS.map(sign => [`no ${sign}`, word => word === sign, () => '']),
  ['no quote', word => /^['"]/.test(word), word => (choose(2) ? word.slice(1) : word.slice(0, -1))],
  ['no operator', word => OPERATOR.test(word), () => ''],
  ['misspelt keyword', word => KEYWORD.test(word) && word.length > 2, swapped],
  ['doubled token', () => true, word => `${word} ${word}`],
];

function* files(folder) {
  for (const entry of fs.readdirSync(folder, { withFileTypes: true }).sort((a, b) => (a.name < b.name ? -1 : 1))) {
    const inner = path.join(folder, entry.name);
    if (entry.isDirectory()) yield* files(inner);
    else if (entry.isFile() && /\.js$/.test(entry.name) && !/min\.js$/.test(entry.name)) yield inner;
  }
}

function acornLine(text) {
  try {
    acorn.parse(text, OPTIONS);
    return undefined;
  } catch (error) {
    return error.loc.line;
  }
}

function v8Line(text) {
  try {
    new vm.Script(text, { filename: 'damaged.js' });
    return undefined;
  } catch (error) {
    return Number(/^damaged\.js:(\d+)/.exec(error.stack)?.[1]);
  }
}

/** The text with one token damaged, where that is, and what kind of damage it is; nothing, if acorn reads it all the same. */
function damaged(text) {
  const tokens = [];
  try {
    acorn.parse(text, { ...OPTIONS, onToken: tokens });
  } catch (_) {
    return undefined;
  }
  const [kind, fits, becomes] = KINDS[choose(KINDS.length)];
  const fitting = tokens.filter(token => fits(text.slice(token.start, token.end)));
  if (fitting.length === 0) return undefined;
  const { start, end } = fitting[choose(fitting.length)];
  const after = text.slice(0, start) + becomes(text.slice(start, end)) + text.slice(end);
  const told = acornLine(after);
  return told && { kind, text: after, line: text.slice(0, start).split('\n').length, acorn: told, v8: v8Line(after) };
}

/** The line that `ecma check` tells first. */
function ecmaLine(program, text) {
  const file = path.join(os.tmpdir(), `damaged-${process.pid}.js`);
  fs.writeFileSync(file, text);
  const run = spawnSync(program, ['check', '--json', '--script', file], { encoding: 'utf8' });
  fs.unlinkSync(file);
  return run.status === 1 ? JSON.parse(run.stdout.split('\n')[0]).line : undefined;
}

function main(program, folder, count = '700') {
  const all = [...files(folder)].filter(file => {
    const { size } = fs.statSync(file);
    return 800 < size && size < 12000;
  });
  const table = new Map([...KINDS.map(kind => [kind[0], { files: 0, ecma: 0, acorn: 0, v8: 0 }]), ['all', { files: 0, ecma: 0, acorn: 0, v8: 0 }]]);
  for (let turn = 0, made = 0; made < Number(count) && turn < 20 * Number(count); turn += 1) {
    const text = fs.readFileSync(all[choose(all.length)], 'utf8');
    const found = text.includes('\r') ? undefined : damaged(text);
    if (!found) continue;
    made += 1;
    const isNear = line => line === found.line || line === found.line + 1;
    for (const row of [table.get(found.kind), table.get('all')]) {
      row.files += 1;
      row.ecma += isNear(ecmaLine(program, found.text));
      row.acorn += isNear(found.acorn);
      row.v8 += isNear(found.v8);
    }
  }
  console.table(Object.fromEntries(table));
}

main(...process.argv.slice(2));
