// Asks `ecma check`, acorn and V8 of random programs that break rules of names, labels, classes and strict code. Run by hand.
//
//     node --experimental-vm-modules tests/scopes_fuzz.js PROGRAM COUNT SEED
//
// PROGRAM is a built `ecma`. The programs are put together from statements, functions and classes that the grammar has, with few names, so that most of them have
// an early error. Prints how many each of the three takes, and each program on which acorn and V8 agree and `ecma` differs, but for what is listed below; status 1 if
// there are any.
'use strict';
const fs = require('fs');
const os = require('os');
const path = require('path');
const vm = require('vm');
const { spawnSync } = require('child_process');
const { acorn } = require('./acorn.js');

// Both refuse `let` in a pattern after `catch`, which no rule of ECMA-262 does.
const LISTED = /\bcatch \([[{].*\blet\b/;
const AT_ONCE = 500;
const DEEPEST = 3;
const [program, count, seed] = process.argv.slice(2);
let state = Number(seed);
/** A number below another one. */
function below(n) {
  state = (Math.imul(state, 1664525) + 1013904223) >>> 0;
  return Math.floor((state / 4294967296) * n);
}
const pick = (all) => all[below(all.length)];
/** One of several functions' results. */
const choose = (...all) => pick(all)();
const some = (least, most, make, between = ' ') => Array.from({ length: least + below(most - least + 1) }, make).join(between);

const name = () => (below(25) ? pick(['a', 'b', 'c', 'd', 'e']) : pick(['eval', 'arguments', 'let', 'yield', 'await', 'static', 'async', 'of']));
const label = () => pick(['a', 'b', 'c']);
const privateName = () => '#' + pick(['a', 'b']);
const directive = () => (below(6) ? '' : '"use strict"; ');

function pattern(depth) {
  if (depth > 1 || below(3)) return name();
  return choose(
    () => `[${some(1, 2, () => pattern(depth + 1), ', ')}]`,
    () => `{ ${some(1, 2, () => choose(name, () => `${name()}: ${pattern(depth + 1)}`), ', ')} }`,
    () => `[...${name()}]`,
  );
}

const parameters = () => some(0, 2, () => choose(name, name, () => pattern(1), () => `${name()} = ${expression(2)}`), ', ');

function expression(depth) {
  if (depth > DEEPEST) return name();
  return choose(
    name,
    name,
    () => `${name()} = ${expression(depth + 1)}`,
    () => `delete ${name()}`,
    () => `(${parameters()}) => ${choose(() => body(depth + 1), () => expression(depth + 1))}`,
    () => `(function${pick(['', '*'])} ${pick(['', name()])}(${parameters()}) ${body(depth + 1)})`,
    () => `(async function ${pick(['', name()])}(${parameters()}) ${body(depth + 1)})`,
    () => `(${classOf(depth + 1, pick(['', name()]))})`,
    () => `this.${privateName()}`,
    () => `${privateName()} in a`,
    () => `({ ${choose(name, () => `a(${parameters()}) ${body(depth + 1)}`, () => `get a() ${body(depth + 1)}`, () => '__proto__: a, __proto__: b')} })`,
    () => (below(4) ? 'this' : pick(['new.target', 'super.a', 'super()', '010', '"\\01"', 'arguments'])),
    () => `(${pick(['yield', 'await'])} ${name()})`,
  );
}

function member(depth) {
  const isStatic = pick(['', '', 'static ']);
  const key = choose(privateName, () => pick(['a', 'constructor', 'prototype', '"constructor"', '["constructor"]']));
  return choose(
    () => `${isStatic}${key}(${parameters()}) ${body(depth + 1)}`,
    () => `${isStatic}${pick(['get', 'set', '*', 'async'])} ${key}(${below(2) ? name() : ''}) ${body(depth + 1)}`,
    () => `${isStatic}get ${key}() ${body(depth + 1)}`,
    () => `${isStatic}set ${key}(${pattern(1)}) ${body(depth + 1)}`,
    () => `${isStatic}${key}${below(2) ? ` = ${expression(depth + 1)}` : ''};`,
    () => `static ${block(depth + 1)}`,
  );
}

const classOf = (depth, own) => `class ${own}${below(3) ? '' : ` extends ${choose(name, () => `(${expression(depth)})`)}`} { ${some(0, 3, () => member(depth))} }`;
const block = (depth) => `{ ${some(0, 3, () => statement(depth + 1))} }`;
const body = (depth) => `{ ${directive()}${some(0, 3, () => statement(depth + 1))} }`;

function statement(depth) {
  if (depth > DEEPEST) return `${name()};`;
  const part = () => statement(depth + 1);
  return choose(
    () => `var ${pattern(1)} = a;`,
    () => `let ${pattern(1)} = a;`,
    () => `const ${pattern(1)} = a;`,
    () => `function ${pick(['', '', '*'])}${name()}(${parameters()}) ${body(depth + 1)}`,
    () => `async function ${name()}(${parameters()}) ${body(depth + 1)}`,
    () => classOf(depth + 1, name()),
    () => block(depth),
    () => `if (a) ${part()}${below(2) ? '' : ` else ${part()}`}`,
    () => `for (${pick(['var', 'let', 'const'])} ${pattern(1)} ${pick(['of', 'in'])} a) ${part()}`,
    () => `for (let ${name()} = a; ; ) ${part()}`,
    () => `while (a) ${part()}`,
    () => `do ${part()} while (a);`,
    () => `switch (a) { case 1: ${some(0, 2, part)} default: ${some(0, 2, part)} }`,
    () => `try ${block(depth)} catch (${pattern(1)}) ${block(depth)}`,
    () => `try ${block(depth)} catch ${block(depth)} finally ${block(depth)}`,
    () => `${label()}: ${part()}`,
    () => (below(3) ? `while (a) { ${part()} break; }` : `break ${pick(['', label()])};`),
    () => (below(3) ? `${label()}: for (;;) { continue; ${part()} }` : `continue ${pick(['', label()])};`),
    () => (below(3) ? part() : `with (a) ${part()}`),
    () => `${expression(depth)};`,
    () => (below(5) ? ';' : 'return;'),
  );
}

function item() {
  return below(3)
    ? statement(0)
    : choose(
        () => `export ${pick(['let', 'const', 'var'])} ${pattern(1)} = a;`,
        () => `export { ${some(1, 2, () => choose(name, () => `${name()} as ${pick(['a', 'b', 'default', '"a"'])}`), ', ')} };`,
        () => `export default ${choose(() => expression(1), () => `function ${name()}() {}`, () => classOf(1, name()))};`,
        () => `import ${choose(name, () => `{ ${some(1, 2, () => choose(name, () => `b as ${name()}`), ', ')} }`, () => `* as ${name()}`)} from "a";`,
        () => `export ${pick(['*', '* as a', '{ a }', '{ "a" as b }'])} from "a";`,
      );
}

function makeProgram() {
  const goal = pick(['script', 'script', 'module']);
  const text = goal === 'module' ? some(1, 3, item) : directive() + some(1, 3, () => statement(0));
  return { goal, text };
}

function saysAcorn({ goal, text }) {
  try {
    acorn.parse(text, { ecmaVersion: 'latest', sourceType: goal });
    return null;
  } catch (error) {
    return error.message;
  }
}

function saysV8({ goal, text }) {
  try {
    if (goal === 'module') new vm.SourceTextModule(text);
    else new vm.Script(text);
    return null;
  } catch (error) {
    return error.message;
  }
}

/** What `ecma check` says of each program that it refuses. */
function toldOf(folder, programs) {
  const told = new Map();
  for (const goal of ['module', 'script']) {
    const names = programs.flatMap((one, index) => (one.goal === goal ? [`${index}.js`] : []));
    for (const file of names) fs.writeFileSync(path.join(folder, file), programs[parseInt(file, 10)].text);
    const run = spawnSync(program, ['check', '--json', `--${goal}`, ...names], { cwd: folder, encoding: 'utf8', maxBuffer: 1 << 28 });
    if (run.status > 1 || run.signal) throw new Error(`${program}: ${run.status ?? run.signal}: ${run.stderr}`);
    for (const line of run.stdout.split('\n').filter((one) => one !== '')) {
      const fault = JSON.parse(line);
      if (fault.message && !told.has(parseInt(fault.file, 10))) told.set(parseInt(fault.file, 10), fault.message);
    }
  }
  return told;
}

const folder = fs.mkdtempSync(path.join(os.tmpdir(), 'scopes-'));
const taken = { ecma: 0, acorn: 0, V8: 0 };
const apart = [];
for (let left = Number(count); left > 0; left -= AT_ONCE) {
  const programs = Array.from({ length: Math.min(left, AT_ONCE) }, makeProgram);
  const told = toldOf(folder, programs);
  programs.forEach((one, index) => {
    const here = told.get(index) ?? null;
    const byAcorn = saysAcorn(one);
    const byV8 = saysV8(one);
    taken.ecma += here === null;
    taken.acorn += byAcorn === null;
    taken.V8 += byV8 === null;
    if ((byAcorn === null) === (byV8 === null) && (here === null) !== (byV8 === null) && !LISTED.test(one.text)) apart.push({ ...one, here, byAcorn, byV8 });
  });
}
fs.rmSync(folder, { recursive: true });
console.log(`${count} programs; taken: ${JSON.stringify(taken)}; apart: ${apart.length}`);
for (const { goal, text, here, byAcorn, byV8 } of apart.sort((one, other) => one.text.length - other.text.length).slice(0, 20)) {
  console.log(`${goal} | ${text} | ${here ?? 'taken'} / acorn: ${byAcorn ?? 'taken'} / V8: ${byV8 ?? 'taken'}`);
}
process.exitCode = apart.length ? 1 : 0;
