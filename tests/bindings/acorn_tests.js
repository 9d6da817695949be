// Runs acorn's own tests with node/ in its place.
//
//     node tests/bindings/acorn_tests.js FOLDER
//
// FOLDER is that of the tests of acorn 8.8.1, as `apt-get source node-acorn` unpacks them. Left out are tests of options that aren't there (PASSED), and those in which acorn itself does otherwise
// as of ECMAScript 2024, as older versions have other rules. Prints the tests that go wrong, and how many go well. Status 1 if any goes wrong. node needs its package acorn
// (NODE_PATH=/usr/share/nodejs).
'use strict';
const fs = require('fs');
const path = require('path');
const acorn = require('acorn');
const ecma = require(process.env.ECMA_NODE || '../../node');

// Options that change what is read, or what is handed out, and that the package doesn't have.
const PASSED = ['preserveParens', 'onToken', 'allowReserved', 'allowAwaitOutsideFunction', 'allowSuperOutsideMethod', 'allowImportExportEverywhere', 'program', 'sourceFile', 'directSourceFile', 'onInsertedSemicolon', 'onTrailingComma', 'allowHashBang'];

const shown = value => JSON.stringify(value, (_, part) => (typeof part === 'bigint' ? `${part}n` : part instanceof RegExp ? String(part) : part));

function read(parser, text, options) {
  try {
    return { tree: parser.parse(text, options) };
  } catch (error) {
    return { error };
  }
}

/** Whether a tree has all that is expected of it. */
function has(tree, expected) {
  if (expected === null || typeof expected !== 'object' || expected instanceof RegExp || tree === null || typeof tree !== 'object') {
    return String(tree) === String(expected);
  }
  return Object.keys(expected).every(key => has(tree[key], expected[key]));
}

const count = { well: 0, refused: 0, passed: 0, wrong: 0 };
function check(text, options, expected) {
  const asked = { ...options, ecmaVersion: 2024 };
  const theirs = read(acorn, text, asked);
  if (PASSED.some(name => name in options) || Boolean(theirs.error) !== (expected === null) || (expected && !has(theirs.tree, expected))) {
    count.passed += 1;
    return;
  }
  const ours = read(ecma, text, asked);
  if (expected === null && ours.error instanceof SyntaxError) {
    count.refused += 1;
  } else if (expected !== null && ours.tree && has(ours.tree, expected) && shown(ours.tree) === shown(theirs.tree)) {
    count.well += 1;
  } else {
    count.wrong += 1;
    console.log(`${JSON.stringify(text)} ${JSON.stringify(options)}: ${ours.error ? ours.error.message : expected === null ? 'is read' : 'another tree'}`);
  }
}

const driver = {
  test: (text, tree, options) => check(text, options || {}, tree),
  testFail: (text, _, options) => check(text, options || {}, null),
  testAssert: () => (count.passed += 1),
};
const folder = process.argv[2];
for (const name of fs.readdirSync(folder).filter(name => /^tests.*\.js$/.test(name))) {
  const load = new Function('require', 'exports', 'module', 'global', fs.readFileSync(path.join(folder, name), 'utf8'));
  const inner = wanted => (/driver/.test(wanted) ? driver : /acorn/.test(wanted) ? acorn : require(wanted));
  load.call({}, inner, {}, {}, {});
}
console.log(`${count.well} trees as they have to be, ${count.refused} texts refused, ${count.wrong} tests go wrong; ${count.passed} left out`);
process.exit(count.wrong > 0 ? 1 : 0);
