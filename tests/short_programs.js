// The rows of tests/short_programs.txt, and programs that are put together of them.
'use strict';

const { readFileSync } = require('fs');

/** All rows, as marks and texts. */
function shortPrograms() {
  const rows = readFileSync('tests/short_programs.txt', 'utf8').trimEnd().split('\n');
  return rows.map(row => ({ mark: row[0], text: row.slice(2).replaceAll('\\n', '\n') }));
}

/** The texts that are read as the same tree here and by acorn. */
function textsRead() {
  return shortPrograms().filter(({ mark }) => mark === '=').map(({ text }) => text);
}

/** What a program is put in, in the place of `$`. */
const ROUND = [
  '$\n$', '$\n;$', '{ $ }', 'a: { $ }', 'if (a) { $ } else { $ }', 'switch (a) { case b: $\ndefault: $ }',
  'for (;;) { $ }', 'for (const x of y) { $ }', 'do { $ } while (b)', 'with (a) { $ }',
  'try { $ } catch (e) { $ } finally { $ }',
  'function f(a) { $ }', 'function f(a = () => { $ }) { $ }', 'async function f() { $ }', 'function* g() { $ }',
  'async function* h() { $ }', 'x = function () { $ }', 'x = () => { $ }', 'x = async () => { $ }', '`${() => { $ }}`',
  'x = { m() { $ }, async n() { $ }, *o() { $ }, get p() { $ }, set q(r) { $ } }',
  'class A { m() { $ } static { $ } async n() { $ } static *o() { $ } get p() { $ } set q(r) { $ } }',
  'class A { [(() => { $ })()]() { $ } }', 'f(class { a = () => { $ }; static b() { $ } })',
];

/** Numbers that look like chance, and are the same in each run. */
function chances(seed) {
  let state = seed;
  return below => {
    state = (state * 1103515245 + 12345) % 2147483648;
    return Math.floor(state / 65536) % below;
  };
}

/** A program of some of these, in statements as deep in one another as is said, or less. */
function nested(texts, next, depth) {
  if (depth === 0) {
    return texts[next(texts.length)];
  }
  const part = () => nested(texts, next, next(3) > 0 ? depth - 1 : 0);
  return ROUND[next(ROUND.length)].replace(/\$(?!\{)/g, part);
}

module.exports = { chances, nested, shortPrograms, textsRead };
