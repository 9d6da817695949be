// Looks that layouts are read again as the same, and are their own layouts.
//
//     node tests/format_again.js                           rows, and the text tests/ecma/format.in
//     node tests/format_again.js ECMA                      texts of tests
//     node tests/format_again.js ECMA FILE ..              files
//     node tests/format_again.js ECMA expr FILE ..         expressions in files: statements, and values that are declared
//
// ECMA is the built program. `ecma format` is run on each text that acorn reads, and then on what it has written. That must have
// the same tokens and comments in the same order, but for semicolons, commas, and blanks around lines of comments, and the
// same tree for acorn, and stay as it is. The
// texts of tests are those of tests/program_texts.py; the rows of tests/short_programs.txt; and what is in one another of
// these, with comments and line breaks among their tokens. Without a program, the layouts are those that rows have. Left out
// is what acorn doesn't read, and what is refused here, of which the messages are counted. The status is 1 where anything
// differs. Run it at the top of the repository; it needs node and its package acorn.
'use strict';

const { execFileSync, spawnSync } = require('child_process');
const { readFileSync } = require('fs');
const { goalOf, parseProgram, wholeText } = require('./acorn.js');
const { expressionsOf } = require('./acorn_trees.js');
const { Report, rowsOf } = require('./acorn_rows.js');
const { chances, nested, textsRead } = require('./short_programs.js');

/** Expressions as real programs have them, each with the mode in which it is read. */
const EXPRESSIONS = `
import json, program_texts
print(json.dumps([[p.mode, program_texts.text_of(p, 20000).decode()] for p in program_texts.PROGRAMS]))`;

/** What is before and after an expression in each mode, and what the whole is. */
const AROUND = {
  script: ['(', ')', 'script'],
  strict: ['"use strict"; (', ')', 'script'],
  module: ['(', ')', 'module'],
  async: ['async function a() { (', ') }', 'script'],
  generator: ['function* a() { (', ') }', 'script'],
  private: ['class A { #a; b() { function c() { (', ') } } }', 'script'],
};

const [ecma, ...given] = process.argv.slice(2);
const report = new Report();
const messages = new Map();

/** What is written of a text; or nothing, where it is refused. */
function layoutOf(text, words) {
  const run = spawnSync(ecma, ['format', ...words], { input: text, encoding: 'utf8', maxBuffer: 1 << 30 });
  if (run.status !== 0) {
    const message = run.stderr.split('\n')[0].replace(/^<stdin>:\d+:\d+: /, '') || `status ${run.status} ${run.signal}`;
    messages.set(message, (messages.get(message) || 0) + 1);
    return null;
  }
  return run.stdout;
}

/** An expression as acorn reads it in a mode. */
function exprText(text, mode) {
  const [before, after, goal] = AROUND[mode];
  return wholeText(`${before}${text}\n${after}`, goal);
}

/** Compares a text with its layout by these words, as acorn reads them, and the layout with its own. */
function compare(name, text, words, readBy) {
  const wanted = readBy(text);
  const layout = wanted && layoutOf(text, words);
  if (layout) {
    report.compare(name, `${wanted}\n${layout}`, `${readBy(layout)}\n${layoutOf(layout, words)}`);
  } else {
    report.skip();
  }
}

function compareProgram(name, text) {
  const goal = goalOf(text) || 'script';
  compare(name, text, [`--${goal}`], program => wholeText(program, goal));
}

function compareExpression(text, mode) {
  compare(text.slice(0, 200), text, ['--expr', '--script'], expr => exprText(expr, mode));
}

/** Compares a text with a layout that is written, as acorn reads them. */
function compareWritten(text, layout, readBy) {
  const wanted = readBy(text);
  if (wanted) {
    report.compare(text, wanted, String(readBy(layout)));
  } else {
    report.skip();
  }
}

function compareRows() {
  const [text, layout] = ['in', 'out'].map(name => readFileSync(`tests/ecma/format.${name}`, 'utf8'));
  compareWritten(text, layout, program => wholeText(program, 'script'));
  for (const { calls, text, answers } of [...rowsOf('programs_laid_out.rows'), ...rowsOf('programs_in_style.rows')]) {
    compareWritten(text, answers[0], program => wholeText(program, calls === 'client: module layout' ? 'module' : 'script'));
  }
  for (const { text, answers } of rowsOf('layouts.rows')) {
    const mode = Object.keys(AROUND).find(mode => exprText(text, mode)) || 'script';
    compareWritten(text, answers[0], expr => exprText(expr, mode));
  }
}

/** What is put among tokens. */
const SPACES = [
  '\n', '\n\n', '\n\n\n', '\r\n', ' /* c */ ', '/* c */', ' // c\n', '\n// c\n', '\n\n// c\n\n', '/* c\n*/', '\n/* c */', '/* c */\n', ';',
];

/** How many programs are made of short ones. */
const MADE = 3000;

/** A program with something put before some of its tokens; or as it is, where acorn refuses it. */
function spaced(text, next) {
  const places = [];
  try {
    parseProgram(text, 'commonjs', { onToken: ({ start }) => places.push(start) });
  } catch (_) {
    return text;
  }
  let [made, from] = ['', 0];
  for (const place of places) {
    made += text.slice(from, place) + (next(4) === 0 ? SPACES[next(SPACES.length)] : '');
    from = place;
  }
  return made + text.slice(from);
}

function compareTexts() {
  for (const [mode, text] of JSON.parse(execFileSync('python3', ['-c', EXPRESSIONS], { cwd: __dirname }))) {
    if (mode === 'script') {
      compareExpression(text, mode);
    }
  }
  const [texts, next] = [textsRead(), chances(1)];
  texts.forEach(text => compareProgram(text, text));
  for (let made = 0; made < MADE; made += 1) {
    const text = nested(texts, next, 1 + next(4));
    compareProgram(text, spaced(text, next));
  }
}

function compareFiles(files) {
  files.forEach(file => compareProgram(file, readFileSync(file, 'utf8')));
}

function compareExpressions(files) {
  for (const text of files.flatMap(file => expressionsOf(readFileSync(file, 'utf8')))) {
    compareExpression(text, 'script');
  }
}

if (given[0] === 'expr') {
  compareExpressions(given.slice(1));
} else if (given.length > 0) {
  compareFiles(given);
} else if (ecma) {
  compareTexts();
} else {
  compareRows();
}
report.end();
for (const [message, number] of messages) {
  console.log(`${number} refused: ${message}`);
}
