// Compares the trees of programs with those that acorn reads. The expected trees are in crates/rows/data/programs.trees
// and in tests/ecma/outline.out; acorn's are printed by acorn_trees.js.
//
//     node tests/statements_acorn.js                     the trees that are written in tests
//     node tests/statements_acorn.js PROGRAM             short programs, and such in one another
//     node tests/statements_acorn.js PROGRAM FILE ..     files
//
// PROGRAM is a built `ecma`. Without it the programs of programs.trees and tests/ecma/outline.in are compared,
// and acorn has to refuse those of refused_programs.rows. With it the program is run on each row of
// short_programs.txt, and on programs that are put together of those that both read; or on each file that acorn reads as
// a script, a module or a CommonJS module. The status is 1 where anything differs. Run it at the top of the repository; node needs
// its package acorn.
//
// A row of short_programs.txt is a mark and a program, with `\n` for a line break: `=` where both read it as the same
// tree, `-` where both refuse it, `+` where acorn alone refuses it, and `!` where the program alone does.
'use strict';

const { readFileSync } = require('fs');
const { goalOf, isProgram } = require('./acorn.js');
const { programTree } = require('./acorn_trees.js');
const { rowsOf, runOn, Report } = require('./acorn_rows.js');
const { chances, nested, shortPrograms, textsRead } = require('./short_programs.js');

const PROGRAMS = 'crates/rows/data/programs.trees';
const OWN = 'tests/ecma/outline';

/** The words by which the program writes the tree of a script. */
const OUTLINE = ['outline', '--script'];

/** Programs that are refused as scripts, and are modules. */
const MODULES = ['import a from "b"', 'export default 1'];

/** acorn's tree of a program, or its fault. */
function acornTree(text, goal = 'script') {
  try {
    return programTree(text, goal);
  } catch (error) {
    return `${error.message}\n`;
  }
}

function compareTables(report) {
  const programs = readFileSync(PROGRAMS, 'latin1').split('====\n').slice(1).map(row => row.split('----\n'));
  programs.push([readFileSync(`${OWN}.in`, 'latin1'), readFileSync(`${OWN}.out`, 'latin1')]);
  for (const [text, wanted] of programs) {
    report.compare(text.split('\n', 1)[0], acornTree(text), wanted);
  }
}

/** What is refused here has to be no script, and some of it modules. */
function compareFaults(report) {
  for (const { text } of rowsOf('refused_programs.rows')) {
    report.compare(text, isProgram(text, 'script') ? 'read' : 'refused', 'refused');
  }
  for (const text of MODULES) {
    report.compare(text, isProgram(text, 'module') ? 'read' : 'refused', 'read');
  }
  for (const row of rowsOf('modules.rows')) {
    compareModule(report, row);
  }
}

/** A module with its tree, or one that is refused. What acorn 8.8 doesn't know is left out: attributes, and `as` twice. */
function compareModule(report, { calls, text, answers: [answer] }) {
  const goal = calls === 'client: CommonJS' ? 'commonjs' : 'module';
  const tree = acornTree(text, goal);
  if (/ with \{| as as/.test(text)) {
    report.skip();
  } else if (answer.startsWith('program')) {
    report.compare(text, tree, answer);
  } else {
    report.compare(text, tree.startsWith('program\n') ? 'read' : 'refused', 'refused');
  }
}

function compareFiles(report, program, files) {
  for (const file of files) {
    const text = readFileSync(file, 'utf8');
    const goal = goalOf(text);
    if (goal) {
      report.compare(`${file} (${goal})`, programTree(text, goal), runOn(program, text, ['outline', `--${goal}`]));
    } else {
      report.skip();
    }
  }
}

/** The mark of a short program. */
function markOf(acorn, here) {
  const [isRead, isReadHere] = [acorn, here].map(tree => tree.startsWith('program\n'));
  if (isRead && isReadHere) {
    return acorn === here ? '=' : 'another tree';
  }
  if (isRead) {
    return '!';
  }
  return isReadHere ? '+' : '-';
}

function compareShort(report, program) {
  for (const { mark, text } of shortPrograms()) {
    report.compare(text, markOf(acornTree(text), runOn(program, text, OUTLINE)), mark);
  }
}

/** Programs that acorn refuses, as those that bind a name twice, are left out. */
function compareNested(report, program, count) {
  const [texts, next] = [textsRead(), chances(7)];
  for (let made = 0; made < count; made += 1) {
    const text = nested(texts, next, 1 + next(4));
    const wanted = acornTree(text);
    if (wanted.startsWith('program\n')) {
      report.compare(text, wanted, runOn(program, text, OUTLINE));
    } else {
      report.skip();
    }
  }
}

const [program, ...files] = process.argv.slice(2);
const report = new Report();
if (files.length > 0) {
  compareFiles(report, program, files);
} else if (program) {
  compareShort(report, program);
  compareNested(report, program, 3000);
} else {
  compareTables(report);
  compareFaults(report);
}
report.end();
