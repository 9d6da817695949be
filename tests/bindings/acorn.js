// Compares the trees and the errors of node/ with acorn's.
//
//     node tests/bindings/acorn.js FILE ..
//
// Each file is read as a script and as a module, with places and comments. Prints the files whose trees differ, and how many are the same; of files that
// one of the two refuses, and of what is in these errors, how many. Status 1 if a tree differs, or a file is read by one of the two alone. node needs its package acorn
// (NODE_PATH=/usr/share/nodejs).
'use strict';
const fs = require('fs');
const acorn = require('acorn');
const ecma = require(process.env.ECMA_NODE || '../../node');

const shown = value =>
  JSON.stringify(value, (key, part) => {
    if (typeof part === 'bigint') return `${part}n`;
    if (part === Infinity) return 'Infinity';
    return part instanceof RegExp ? String(part) : part;
  });

function read(parser, text, sourceType) {
  const comments = [];
  const options = { ecmaVersion: 2024, sourceType, locations: true, ranges: true, onComment: comments, allowHashBang: true, levels: 300 };
  try {
    return { tree: shown(parser.parse(text, options)), comments: shown(comments) };
  } catch (error) {
    return { error };
  }
}

const count = { same: 0, refused: 0, placed: 0, other: 0 };
for (const file of process.argv.slice(2)) {
  const text = fs.readFileSync(file, 'utf8');
  for (const sourceType of ['script', 'module']) {
    const [ours, theirs] = [read(ecma, text, sourceType), read(acorn, text, sourceType)];
    if (ours.error && theirs.error) {
      count.refused += 1;
      count.placed += ours.error.pos === theirs.error.pos && ours.error.loc.line === theirs.error.loc.line && ours.error.loc.column === theirs.error.loc.column;
    } else if (ours.tree === theirs.tree && ours.comments === theirs.comments) {
      count.same += 1;
    } else {
      count.other += 1;
      const why = (ours.error || theirs.error || { message: ours.tree === theirs.tree ? 'other comments' : 'another tree' }).message;
      console.log(`${file} as a ${sourceType}: ${ours.error ? 'we refuse: ' : theirs.error ? 'acorn refuses: ' : ''}${why}`);
    }
  }
}
console.log(`${count.same} trees are the same, ${count.other} aren't; ${count.refused} texts are refused by both, ${count.placed} at one place`);
process.exit(count.other > 0 ? 1 : 0);
