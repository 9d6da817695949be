// Rows of calls of the package of node/, and what they answer: acorn's trees and the standard's, not our own output.
//
//     ECMA_NODE=FOLDER node tests/bindings/rows.js
//
// Prints the rows that answer otherwise, and how many rows there are. Status 1 if there are such rows.
'use strict';
const ecma = require(process.env.ECMA_NODE);

const expression = (text, options) => ecma.parse(text, options).body[0].expression;
const thrown = call => {
  try {
    return call();
  } catch (error) {
    return [error.name, error.pos, error.loc && error.loc.line, error.loc && error.loc.column, error.raisedAt];
  }
};
const comments = (text, options) => {
  const list = [];
  ecma.parse(text, { ...options, onComment: list });
  return list.map(comment => [comment.type, comment.value, comment.start, comment.end]);
};
const called = text => {
  const calls = [];
  ecma.parse(text, { locations: true, onComment: (...given) => calls.push(given) });
  return calls;
};
const places = list => list.map(({ line, column, message }) => [line, column, message]);
const deep = (left, count, right) => left.repeat(count) + right.repeat(count);

const ROWS = [
  ['an empty program', () => ecma.parse(''), { type: 'Program', start: 0, end: 0, body: [], sourceType: 'script' }],
  [
    'a tree',
    () => ecma.parse('a', { sourceType: 'module' }),
    {
      type: 'Program',
      start: 0,
      end: 1,
      body: [{ type: 'ExpressionStatement', start: 0, end: 1, expression: { type: 'Identifier', start: 0, end: 1, name: 'a' } }],
      sourceType: 'module',
    },
  ],
  ['places', () => expression('\n a', { locations: true, ranges: true }).loc, { start: { line: 2, column: 1 }, end: { line: 2, column: 2 } }],
  ['ranges', () => expression('\n a', { ranges: true }).range, [2, 3]],
  ['no places', () => expression('a').loc, undefined],
  ['UTF-16 units', () => expression('"𝒂"; b').end, 4],
  ['a half of a pair', () => expression('"\\ud83d"').value.charCodeAt(0), 0xd83d],
  ['a number', () => expression('0x1F').value, 31],
  ['a number with separators', () => expression('1_000.5').value, 1000.5],
  ['a number without an end', () => expression('1e999').value, Infinity],
  ['a big integer', () => expression('12n').value === 12n, true],
  ['the text of a big integer', () => expression('0b11n').bigint, '0b11'],
  ['a regular expression', () => String(expression('/a(?<b>c)/giu').value), '/a(?<b>c)/giu'],
  ['its parts', () => expression('/a/y').regex, { pattern: 'a', flags: 'y' }],
  ['null', () => expression('null').value, null],
  ['a boolean', () => expression('true').value, true],
  ['a template', () => expression('`a\\n${b}`').quasis.map(part => [part.value.raw, part.value.cooked, part.tail]), [['a\\n', 'a\n', false], ['', '', true]]],
  ['a property without a value', () => expression('({a: null})').properties[0].value.value, null],
  ['a directive', () => ecma.parse('"use strict"').body[0].directive, 'use strict'],
  ['a hashbang', () => ecma.parse('#!/bin/node\na').body.length, 1],
  ['a return', () => ecma.parse('return 1', { allowReturnOutsideFunction: true }).body[0].type, 'ReturnStatement'],
  ['comments', () => comments('/*a*/ b // c'), [['Block', 'a', 0, 5], ['Line', ' c', 8, 12]]],
  ['comments that are called', () => called('//a\nb'), [[false, 'a', 0, 3, { line: 1, column: 0 }, { line: 1, column: 3 }]]],
  ['no comments in the tree', () => 'comments' in ecma.parse('//a', { onComment: [] }), false],
  ['a fault', () => thrown(() => ecma.parse('a b')), ['SyntaxError', 2, 1, 2, 3]],
  ['a fault on another line', () => thrown(() => ecma.parse('a;\n  ]')), ['SyntaxError', 5, 2, 2, 6]],
  ['an early error', () => thrown(() => ecma.parse('let a;\nlet a')), ['SyntaxError', 11, 2, 4, 12]],
  ['a bad pattern', () => thrown(() => ecma.parse('/(/'))[0], 'SyntaxError'],
  ['a module that is a script', () => thrown(() => ecma.parse('import "a"'))[0], 'SyntaxError'],
  ['a bad option', () => thrown(() => ecma.parse('a', { sourceType: 'other' }))[0], 'RangeError'],
  ['an option that is passed over', () => ecma.parse('', { ecmaVersion: 5 }).type, 'Program'],
  ['an option that is lacking', () => thrown(() => ecma.parse('', { onToken: [] }))[0], 'RangeError'],
  ['what is nested', () => expression(deep('[', 150, ']')).type, 'ArrayExpression'],
  ['what is nested too deeply', () => thrown(() => ecma.parse(deep('[', 5000, ']')))[0], 'SyntaxError'],
  ['blocks that are nested', () => ecma.parse(deep('{', 3000, '}')).body.length, 1],
  ['for ESLint', () => Object.keys(ecma.parseForESLint('a // b').ast).sort(), ['body', 'comments', 'end', 'loc', 'range', 'sourceType', 'start', 'tokens', 'type']],
  ['tokens for ESLint', () => ecma.parseForESLint('if (a) /b/').ast.tokens.map(token => token.type), ['Keyword', 'Punctuator', 'Identifier', 'Punctuator', 'RegularExpression']],
  ['the places of ESLint', () => thrown(() => ecma.parseForESLint('a\n ]')).slice(0, 4), ['SyntaxError', 3, 2, 1]],
  ['nothing is wrong', () => ecma.check('a'), []],
  ['all that is wrong', () => places(ecma.check('let a;\nlet a; break')), [[2, 5, "'a' is declared already"], [2, 8, "'break' can only be used in loops and 'switch'"]]],
  ['a layout', () => ecma.format('a( b,c )', { indent: 4 }), 'a(b, c);\n'],
  ['a layout of lines', () => ecma.format('f(aaaaaaaaaa, bbbbbbbbbb)', { width: 20, commas: 'none' }), 'f(\n  aaaaaaaaaa,\n  bbbbbbbbbb\n);\n'],
  ['names', () => ecma.names('let a; a = b'), [
    { name: 'a', start: 4, end: 5, use: 'bound', binding: null },
    { name: 'a', start: 7, end: 8, use: 'written', binding: [4, 5] },
    { name: 'b', start: 11, end: 12, use: 'read', binding: null },
  ]],
  ['tokens', () => ecma.tokens('a+`b`').map(token => [token.type, token.text]), [['word', 'a'], ['sign', '+'], ['sign', '`'], ['template', 'b'], ['sign', '`']]],
];

let wrong = 0;
for (const [name, call, expected] of ROWS) {
  let found;
  try {
    found = call();
  } catch (error) {
    found = String(error);
  }
  if (JSON.stringify(found) !== JSON.stringify(expected)) {
    wrong += 1;
    console.log(`${name}: ${JSON.stringify(found)}, and not ${JSON.stringify(expected)}`);
  }
}
console.log(`${ROWS.length} rows, ${wrong} of them otherwise`);
process.exit(wrong > 0 ? 1 : 0);
