// Compares what `ecma check` accepts of the texts of the tests of acorn, Babel and esprima with acorn and V8. Run by hand.
//
//     node --experimental-vm-modules tests/suites_acorn.js PROGRAM FOLDER
//
// FOLDER has acorn-8.8.1, babel-7.20.15 and esprima-4.0.1, as `apt-get source node-acorn node-babel7 node-esprima` unpacks them. Texts of Babel that need a
// plugin, and those that aren't UTF-8, are left out. Prints how many texts acorn and V8 both refuse and `ecma` accepts, and the other way around, with the
// texts; and of those that all refuse on how many `ecma` tells acorn's line first.
'use strict';
const fs = require('fs');
const os = require('os');
const path = require('path');
const vm = require('vm');
const { spawnSync } = require('child_process');
const { acorn } = require('./acorn.js');

const OPTIONS = {
  script: { sourceType: 'script' },
  commonjs: { sourceType: 'script', allowReturnOutsideFunction: true },
  module: { sourceType: 'module' },
};
const LANGUAGES = /^(flow|jsx|typescript|placeholders|v8intrinsic|experimental)\//;

const goalOf = options =>
  options.sourceType === 'module' ? 'module' : options.allowReturnOutsideFunction ? 'commonjs' : 'script';

/** The texts of acorn's tests, which are calls of a driver. */
function* acornTexts(folder) {
  const found = [];
  const note = (code, _, options) => found.push([code, options ?? {}]);
  const driver = { test: note, testFail: note, testAssert: note };
  for (const name of fs.readdirSync(folder).filter(name => /^tests.*\.js$/.test(name))) {
    const load = new Function('require', 'exports', 'module', 'global', fs.readFileSync(path.join(folder, name), 'utf8'));
    const inner = wanted => (/driver/.test(wanted) ? driver : /acorn/.test(wanted) ? acorn : require(wanted));
    try {
      load.call({}, inner, {}, {}, {});
    } catch (error) {
      console.log(`${name}: ${error.message}`);
    }
  }
  yield* found;
}

function optionsIn(folder) {
  try {
    return JSON.parse(fs.readFileSync(path.join(folder, 'options.json'), 'utf8'));
  } catch (_) {
    return {};
  }
}

/** The texts of Babel's tests: a folder each, whose options add to those of the folder around it. */
function* babelTexts(root, folder = root) {
  const names = fs.readdirSync(folder);
  const input = names.find(name => /^input\.(m?js|cjs)$/.test(name));
  const [outer, inner] = [optionsIn(path.dirname(folder)), optionsIn(folder)];
  const plugins = [...(outer.plugins ?? []), ...(inner.plugins ?? [])].map(plugin => [plugin].flat()[0]);
  const isOther = LANGUAGES.test(path.relative(root, folder) + '/') || plugins.some(plugin => plugin !== 'estree');
  if (input && !isOther) {
    const sourceType = inner.sourceType ?? outer.sourceType ?? (input.endsWith('.mjs') ? 'module' : 'script');
    yield [fs.readFileSync(path.join(folder, input), 'utf8'), { ...inner, sourceType }];
  }
  for (const name of names) {
    if (fs.statSync(path.join(folder, name)).isDirectory()) yield* babelTexts(root, path.join(folder, name));
  }
}

/** The texts of esprima's tests. */
function* esprimaTexts(folder) {
  for (const name of fs.readdirSync(folder)) {
    const file = path.join(folder, name);
    if (fs.statSync(file).isDirectory()) yield* esprimaTexts(file);
    else if (/\.js$/.test(name)) {
      const text = fs.readFileSync(file, 'utf8');
      const code = /\.source\.js$/.test(name) ? new Function(`${text}\nreturn source`)() : text;
      yield [code, { sourceType: /\.module\.js$/.test(name) ? 'module' : 'script' }];
    }
  }
}

function acornFault(code, goal) {
  try {
    acorn.parse(code, { ecmaVersion: 2024, ...OPTIONS[goal] });
    return undefined;
  } catch (error) {
    return { line: error.loc?.line, message: error.message };
  }
}

function isRefusedByV8(code, goal) {
  try {
    if (goal === 'script') new vm.Script(code);
    else if (goal === 'commonjs') vm.compileFunction(code);
    else new vm.SourceTextModule(code);
    return false;
  } catch (_) {
    return true;
  }
}

/** The first finding of `ecma check` in each text of a goal, by their numbers. */
function firstFindings(program, goal, texts) {
  const folder = fs.mkdtempSync(path.join(os.tmpdir(), 'suites-'));
  texts.forEach((code, number) => fs.writeFileSync(path.join(folder, `${number}.js`), code));
  const run = spawnSync(program, ['check', '--json', `--${goal}`, folder], { encoding: 'utf8', maxBuffer: 1 << 30 });
  fs.rmSync(folder, { recursive: true });
  if (run.status > 1 || run.signal) throw new Error(`${goal}: status ${run.status} ${run.signal} ${run.stderr.slice(0, 200)}`);
  const first = new Map();
  for (const line of run.stdout.split('\n').filter(Boolean)) {
    const finding = JSON.parse(line);
    const number = Number(path.basename(finding.file, '.js'));
    if (!first.has(number)) first.set(number, finding);
  }
  return first;
}

function main(program, folder) {
  const byGoal = { script: new Set(), commonjs: new Set(), module: new Set() };
  const all = [
    acornTexts(path.join(folder, 'acorn-8.8.1/test')),
    babelTexts(path.join(folder, 'babel-7.20.15/packages/babel-parser/test/fixtures')),
    esprimaTexts(path.join(folder, 'esprima-4.0.1/test/fixtures')),
  ];
  for (const texts of all) {
    for (const [code, options] of texts) {
      if (typeof code === 'string' && code.isWellFormed()) byGoal[goalOf(options)].add(code);
    }
  }
  const counts = { texts: 0, invalid: 0, accepted: 0, valid: 0, refused: 0, line: 0 };
  for (const [goal, set] of Object.entries(byGoal)) {
    const texts = [...set];
    const first = firstFindings(program, goal, texts);
    texts.forEach((code, number) => {
      const [acorns, found, isInvalid] = [acornFault(code, goal), first.get(number), isRefusedByV8(code, goal)];
      counts.texts += 1;
      if (acorns && isInvalid) {
        counts.invalid += 1;
        if (!found) {
          counts.accepted += 1;
          console.log(`accepted: ${goal} ${JSON.stringify(code).slice(0, 120)}: ${acorns.message}`);
        } else if (found.line === acorns.line) counts.line += 1;
      } else if (!acorns && !isInvalid) {
        counts.valid += 1;
        if (found) {
          counts.refused += 1;
          console.log(`refused: ${goal} ${JSON.stringify(code).slice(0, 120)}: ${found.message}`);
        }
      }
    });
  }
  console.log(`${counts.texts} texts; acorn and V8 refuse ${counts.invalid}, of which ${counts.accepted} are accepted, and ${counts.line} are told on acorn's line; they read ${counts.valid}, of which ${counts.refused} are refused`);
}

main(...process.argv.slice(2));
