// The parser acorn, and what it reads of a text.
'use strict';

/** The package acorn, as node finds it or where Debian has it. */
function findAcorn() {
  try {
    return require('acorn');
  } catch (_) {
    return require('/usr/share/nodejs/acorn');
  }
}

const acorn = findAcorn();

/** What a program may be read as, in the order in which that is tried. */
const GOALS = ['script', 'module', 'commonjs'];

/** Reads a script, a module, or a CommonJS module, which is the body of a function. */
function parseProgram(text, goal, more = {}) {
  const isCommonJs = goal === 'commonjs';
  const sourceType = isCommonJs ? 'script' : goal;
  return acorn.parse(text, { ecmaVersion: 2022, sourceType, preserveParens: true, allowReturnOutsideFunction: isCommonJs, allowHashBang: true, ...more });
}

/** Reads the expression at the start of a script or a module. */
function parseExpression(text, goal) {
  return acorn.parseExpressionAt(text, 0, { ecmaVersion: 2022, sourceType: goal, preserveParens: true });
}

/** Whether acorn reads a text as a script, a module or a CommonJS module. */
function isProgram(text, goal) {
  try {
    parseProgram(text, goal);
    return true;
  } catch (_) {
    return false;
  }
}

/** What acorn reads a text as; nothing, where it refuses it. */
function goalOf(text) {
  return GOALS.find(goal => isProgram(text, goal));
}

/** Whether a call by `new` has no arguments in parentheses. acorn has no arguments there, either way. */
function isBare(node) {
  return node.end === node.callee.end;
}

/** A tree without places, as text. */
function bareText(tree) {
  const part = (name, value) => {
    if (name === 'start' || name === 'end') {
      return undefined;
    }
    if (value && value.type === 'NewExpression') {
      return { ...value, isBare: isBare(value) };
    }
    return typeof value === 'bigint' || value instanceof RegExp ? String(value) : value;
  };
  return JSON.stringify(tree, part, 1);
}

/**
 * What acorn reads of a program, as text: its tokens and comments in their order, but for semicolons, commas, and blanks
 * around the lines of comments, and its tree without places. Nothing, where acorn refuses it.
 */
function wholeText(text, goal) {
  const pieces = [];
  const onToken = ({ start, end }) => pieces.push(text.slice(start, end));
  const onComment = (isBlock, comment, start, end) => pieces.push(text.slice(start, end).replace(/\s*\n[ \t]*/g, '\n').trimEnd());
  try {
    const tree = parseProgram(text, goal, { onToken, onComment });
    return `${JSON.stringify(pieces.filter(piece => piece !== ';' && piece !== ','), null, 1)}\n${bareText(tree)}`;
  } catch (_) {
    return null;
  }
}

module.exports = { acorn, goalOf, isBare, isProgram, parseExpression, parseProgram, wholeText };
