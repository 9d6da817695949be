// Rows of tests, and what is said of those that differ.
'use strict';

const { execFileSync, spawnSync } = require('child_process');

/** The rows of a file of crates/rows/data, each with its `text` and its `answers`, with line breaks for `\n`. */
function rowsOf(name) {
  return JSON.parse(execFileSync('tests/rows.py', [name]));
}

/** What a program writes when it is run on a text, with these words: its answer, or what it says is wrong. */
function runOn(program, text, words = []) {
  const run = spawnSync(program, words, { input: text, encoding: 'utf8', maxBuffer: 1 << 30 });
  return run.stdout || run.stderr;
}

/** The first line in which two texts differ. */
function firstDifference(acorn, wanted) {
  const [lines, others] = [acorn.split('\n'), wanted.split('\n')];
  const at = lines.findIndex((line, index) => line !== others[index]);
  const line = at < 0 ? lines.length : at;
  return `line ${line + 1}\n    acorn: ${lines[line]}\n    here:  ${others[line]}`;
}

/** How many rows were compared, and which differ. */
class Report {
  constructor() {
    this.same = 0;
    this.different = 0;
    this.skipped = 0;
  }

  compare(name, acorn, here) {
    if (acorn === here) {
      this.same += 1;
    } else {
      this.different += 1;
      console.log(`${name}: ${firstDifference(acorn, here)}`);
    }
  }

  skip() {
    this.skipped += 1;
  }

  end() {
    console.log(`${this.same} the same, ${this.different} different, ${this.skipped} left out`);
    process.exitCode = this.different > 0 ? 1 : 0;
  }
}

module.exports = { rowsOf, runOn, Report };
