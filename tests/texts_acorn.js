// Whether the rows of texts.rows are as acorn reads their texts: node tests/texts_acorn.js
//
// A tree, its place and whether tokens are left have to be acorn's. Where a row has a refusal or a fault that is recorded,
// acorn has to refuse the text; which fault that is, acorn can't say. A tree with such a fault is compared where acorn takes
// the text as a script.
'use strict';

const { Report, rowsOf } = require('./acorn_rows.js');
const { Printer, bytesOf } = require('./acorn_trees.js');
const { parseExpression, parseProgram } = require('./acorn.js');

/** The expression or pattern that acorn reads at the start of a text, and where it begins in what acorn was given. */
function readAt(call, goal, text) {
  if (call === 'parse_text_pat') {
    const before = 'var ';
    const after = /=[^=]*$/.test(text) && !/[\]}]\s*$/.test(text) ? '' : ' = 0';
    return [parseProgram(before + text + after, goal).body[0].declarations[0].id, before];
  }
  if (text.startsWith('#')) {
    const before = 'class A { #a; b = ';
    return [parseProgram(`${before}${text} }`, goal).body[0].body.body[1].value, before];
  }
  return [parseExpression(text, goal), ''];
}

/** The answer that acorn's tree says, as a row has it; nothing, where acorn refuses the text. Bodies are without tokens. */
function answerOf(call, goal, text) {
  try {
    const [node, before] = readAt(call, goal, text);
    const bytes = bytesOf(text);
    const [start, end] = [node.start, node.end].map(at => (bytes ? bytes[at - before.length] : at - before.length));
    const printer = new Printer(before + text);
    const tree = call === 'parse_text_pat' ? printer.pat(node) : printer.expr(node);
    const left = text.slice(node.end - before.length).trim() ? ' | unread' : '';
    return `${tree} ${start}..${end}${left}`;
  } catch (error) {
    if (!(error instanceof SyntaxError)) {
      throw error;
    }
    return null;
  }
}

const report = new Report();
for (const { calls, setting, text, answers } of rowsOf('texts.rows')) {
  const call = calls.replace('text: ', '');
  const goal = setting === 'script' ? 'script' : 'module';
  const faults = answers.filter(answer => answer !== 'unread');
  const isFaulty = faults.length > 1 || faults[0].startsWith('refused: ');
  const here = answers.join(' | ').replace(/<\d+>/g, '<0>');
  const acorn = answerOf(call, goal, text);
  if (!isFaulty) {
    report.compare(text, String(acorn), here);
  } else if (acorn !== null) {
    report.compare(text, acorn, here);
  } else {
    const tree = answerOf(call, 'script', text);
    report.compare(text, tree ?? 'refused', tree === null ? 'refused' : faults[0]);
  }
}
report.end();
