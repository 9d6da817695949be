// Compares the tokens of files with acorn's: their kinds, places, values and line breaks.
//
//     node tests/tokens_acorn.js ROWS FOLDER ..
//
// ROWS is a built program `rows`, proved or not (tests/unproved.sh rows). Each file of the folders, and of those in them, whose name ends with
// `.js`, `.mjs` or `.cjs` is read as a module by acorn, or as a script where it is none; its parser tells which slashes divide. Left out are files
// that it refuses, and those that aren't UTF-8. The status is 1 where anything differs. node needs its package acorn (NODE_PATH=/usr/share/nodejs).
'use strict';

const { readdirSync, readFileSync } = require('fs');
const { join } = require('path');
const acorn = require('acorn');
const { runOn, Report } = require('./acorn_rows.js');

const KEYWORDS = new Set(('await break case catch class const continue debugger default delete do else export extends finally for function if import ' +
  'in instanceof let new return super switch this throw try typeof var void while with yield').split(' '));
const WORDS = new Set(['null', 'true', 'false']);
const BINARY = new Set('== != === !== < <= > >= << >> >>> + - * / % | ^ & || && ** ??'.split(' '));
const ASSIGN = new Set('= += -= *= /= %= <<= >>= >>>= |= ^= &= **= &&= ||= ??='.split(' '));
const BREAK = /[\n\r\u2028\u2029]/;

function* filesOf(folder) {
  for (const entry of readdirSync(folder, { withFileTypes: true })) {
    const path = join(folder, entry.name);
    if (entry.isDirectory()) {
      yield* filesOf(path);
    } else if (entry.isFile() && /\.[mc]?js$/.test(entry.name)) {
      yield path;
    }
  }
}

/** acorn's tokens of a text, and how it reads it; or null where it refuses it. */
function acornTokens(text) {
  for (const sourceType of ['module', 'script']) {
    const tokens = [];
    const options = { ecmaVersion: 'latest', sourceType, allowHashBang: true, allowReturnOutsideFunction: true, onToken: tokens };
    try {
      acorn.parse(text, options);
      return { sourceType, tokens };
    } catch {
      continue;
    }
  }
  return null;
}

/** Where each character of a text is, in bytes. */
function placesOf(text) {
  const places = new Uint32Array(text.length + 1);
  let at = 0;
  for (let i = 0; i < text.length; i++) {
    places[i] = at;
    const code = text.charCodeAt(i);
    const isPair = code >= 0xd800 && code < 0xe000;
    at += code < 0x80 ? 1 : code < 0x800 || isPair ? 2 : 3;
  }
  places[text.length] = at;
  return places;
}

function shown(value) {
  const byte = b => (b >= 32 && b <= 126 ? String.fromCharCode(b) : `<${b}>`);
  return `[${[...Buffer.from(value.toWellFormed())].map(byte).join('')}]`;
}

function word(value) {
  return `${KEYWORDS.has(value) ? 'keyword' : WORDS.has(value) ? 'word' : 'name'} ${shown(value)}`;
}

function sign(written) {
  return `${BINARY.has(written) ? 'binary' : ASSIGN.has(written) ? 'assign' : 'sign'} ${written}`;
}

/** A text of a template: as it is written, with LF for CR, and what it means, where its escapes are good ones. */
function template(written, value) {
  const raw = shown(written.replace(/\r\n?/g, '\n'));
  return `template ${raw} ${value === null ? '(bad)' : shown(value)}`;
}

/** The tokens for one of acorn's, each with its beginning and its end. */
function tokensFor({ type, value, start, end }, text) {
  const written = text.slice(start, end);
  if (type.keyword || type.label === 'name') {
    return [[word(value), start, end]];
  }
  switch (type.label) {
    case 'num':
      return [[`${typeof value === 'bigint' ? 'big' : 'number'} ${shown(written)}`, start, end]];
    case 'string':
      return [[`string ${shown(value)}`, start, end]];
    case 'regexp':
      return [[`regexp ${shown(value.pattern)} ${shown(value.flags)}`, start, end]];
    case 'template':
    case 'invalidTemplate':
      return [[template(written, type.label === 'template' ? value : null), start, end]];
    case 'privateId':
      return [[sign('#'), start, start + 1], [word(value), start + 1, end]];
    case '?.':
      return [[sign('?'), start, start + 1], [sign('.'), start + 1, end]];
    default:
      return [[sign(written), start, end]];
  }
}

/** acorn's tokens, one a line, as `rows` writes them. */
function linesOf(tokens, text) {
  const places = placesOf(text);
  const lines = [];
  let last = /^(#![^\n\r\u2028\u2029]*)?/.exec(text)[0].length;
  for (const token of tokens.filter(({ type }) => type !== acorn.tokTypes.eof)) {
    for (const [said, start, end] of tokensFor(token, text)) {
      const breaks = BREAK.test(text.slice(last, start)) ? '^' : '';
      lines.push(`${breaks}${said} ${places[start]}..${places[end]}`);
      last = end;
    }
  }
  return lines.join('\n');
}

/** The text as a row has it: but for letters and digits, each byte by its number. */
function written(bytes) {
  return bytes.toString('latin1').replace(/[^a-zA-Z0-9]/g, c => `\\${c.charCodeAt(0).toString(16).padStart(2, '0')}`);
}

/** What `rows` answers, one token a line. */
function answerOf(program, sourceType, bytes) {
  const answer = runOn(program, `lexed: tokens | ${sourceType}:\n\n    ${written(bytes)} | \n`);
  const tokens = answer.slice(answer.lastIndexOf('\n    ')).replace(/^\n.*? \| /, '').trimEnd();
  return tokens.replace(/, (?=\^?(?:name|word|keyword|number|big|string|template|regexp|sign|binary|assign) )/g, '\n')
    .replace(/\(BadCharacterEscapeSequence \d+\.\.\d+\)/g, '(bad)');
}

const [program, ...folders] = process.argv.slice(2);
const report = new Report();
for (const path of folders.flatMap(folder => [...filesOf(folder)])) {
  const bytes = readFileSync(path);
  const text = bytes.toString();
  const read = Buffer.from(text).equals(bytes) ? acornTokens(text) : null;
  if (read === null) {
    report.skip();
  } else {
    report.compare(path, linesOf(read.tokens, text) || 'none', answerOf(program, read.sourceType, bytes));
  }
}
report.end();
