'use strict';
const { call, version } = require('./ecma.node');

const FUNCTIONS = { check: 0, estree: 1, format: 2, names: 3, tokens: 4 };
const GOALS = { any: 0, script: 1, module: 2, commonjs: 3 };
const COMMAS = { all: 0, lists: 1, none: 2 };
const [LOC, RANGE, COMMENTS, TOKENS] = [1, 2, 4, 8];
const [FAULT, BAD_OPTION, OUT_OF_MEMORY, TOO_DEEP] = [1, 4, 5, 6];

// Options of acorn's that change what is read or handed out, and that aren't there.
const LACKING = ['allowAwaitOutsideFunction', 'allowImportExportEverywhere', 'allowReserved', 'allowSuperOutsideMethod', 'directSourceFile',
  'onInsertedSemicolon', 'onToken', 'onTrailingComma', 'preserveParens', 'program', 'sourceFile'];

/** What an option names, of the words that it may be. */
function chosen(words, name, option, usual) {
  const word = option === undefined ? usual : option;
  if (!Object.prototype.hasOwnProperty.call(words, word)) {
    throw new RangeError(`${name} is one of ${Object.keys(words).join(', ')}, and not ${word}`);
  }
  return words[word];
}

/** What a function of the library answers for a text. */
function ask(name, text, { goal = 0, levels = 0, extras = 0, most = 0, width = 0, indent = 0, commas = 0 }) {
  const source = String(text);
  const found = call(FUNCTIONS[name], source, [goal, levels, extras, most, width, indent, commas]);
  if (found.status === BAD_OPTION) throw new RangeError('an option has a value that it may not have');
  if (found.status === OUT_OF_MEMORY) throw new Error('out of memory');
  return found;
}

/** The error of a text, as acorn throws it. */
function faultOf({ text, start, end, line, column }) {
  const error = new SyntaxError(`${text} (${line}:${column - 1})`);
  error.pos = start;
  error.loc = { line, column: column - 1 };
  error.raisedAt = end;
  return error;
}

/** The answer, unless the text has a fault. */
function answered(found) {
  if (found.status === FAULT || found.status === TOO_DEEP) throw faultOf(found);
  return found.text;
}

/** Calls a function with each node of a tree. */
function eachNode(tree, visit) {
  const left = [tree];
  while (left.length > 0) {
    const node = left.pop();
    if (node.type !== undefined) visit(node);
    for (const key in node) {
      const part = node[key];
      if (part !== null && typeof part === 'object' && key !== 'loc' && key !== 'range') left.push(part);
    }
  }
}

/** The tree of JSON. Literals get the values that JSON doesn't have. */
function revive(text) {
  const tree = JSON.parse(text);
  if (/"bigint":|"regex":|"value":null/.test(text)) eachNode(tree, reviveLiteral);
  return tree;
}

function reviveLiteral(node) {
  if (node.type !== 'Literal') return;
  if (typeof node.bigint === 'string') {
    node.value = BigInt(node.bigint);
  } else if (node.regex) {
    node.value = regexp(node.regex);
  } else if (node.value === null && node.raw !== 'null') {
    node.value = Infinity;
  }
}

/** The value of a regular expression; null where this engine doesn't have it, as in acorn. */
function regexp({ pattern, flags }) {
  try {
    return new RegExp(pattern, flags);
  } catch (_) {
    return null;
  }
}

/** The goal that acorn's options name. */
function goalOf({ sourceType = 'script', allowReturnOutsideFunction = false }) {
  const goal = chosen(GOALS, 'sourceType', sourceType === 'commonjs' ? 'commonjs' : sourceType, 'script');
  return allowReturnOutsideFunction && goal === GOALS.script ? GOALS.commonjs : goal;
}

/** Hands comments to `onComment`, a list or a function. */
function tell(comments, onComment, locations) {
  for (const comment of comments) {
    if (Array.isArray(onComment)) {
      onComment.push(comment);
      continue;
    }
    const { type, value, start, end, loc } = comment;
    onComment(type === 'Block', value, start, end, ...(locations ? [loc.start, loc.end] : []));
  }
}

/**
 * The tree of a program, as acorn's `parse` makes it. Throws a `SyntaxError` with `pos`, `loc` and `raisedAt` where the
 * program has a fault.
 */
function parse(text, options = {}) {
  const { locations, ranges, onComment, levels } = options || {};
  const lacking = LACKING.find(name => options && options[name]);
  if (lacking) throw new RangeError(`the option ${lacking} isn't there`);
  const extras = (locations ? LOC : 0) + (ranges ? RANGE : 0) + (onComment ? COMMENTS : 0);
  const tree = revive(answered(ask('estree', text, { goal: goalOf(options || {}), extras, levels })));
  if (onComment) {
    tell(tree.comments, onComment, locations);
    delete tree.comments;
  }
  return tree;
}

/** Moves the ends of a part of a template over its marks, as ESLint's parser has them. */
function widen(text, element) {
  if (element.type !== 'TemplateElement') return;
  const after = text.startsWith('${', element.end) ? 2 : 1;
  element.start -= 1;
  element.end += after;
  element.range = [element.start, element.end];
  element.loc.start.column -= 1;
  element.loc.end.column += after;
}

/** The program from its first token to its last, as ESLint's parser has it. */
function narrow(ast) {
  const { body, tokens } = ast;
  if (body.length > 0) {
    ast.start = ast.range[0] = body[0].range[0];
    ast.loc.start = body[0].loc.start;
  }
  if (tokens.length > 0) {
    const last = tokens[tokens.length - 1];
    ast.end = ast.range[1] = last.range[1];
    ast.loc.end = last.loc.end;
  }
}

/** What ESLint asks a parser for: the tree with places, tokens and comments. */
function parseForESLint(text, options = {}) {
  const source = String(text);
  const { sourceType = 'script', ecmaFeatures = {}, levels } = options || {};
  const goal = goalOf({ sourceType, allowReturnOutsideFunction: Boolean(ecmaFeatures && ecmaFeatures.globalReturn) });
  const found = ask('estree', source, { goal, extras: LOC + RANGE + COMMENTS + TOKENS, levels });
  if (found.status === FAULT || found.status === TOO_DEEP) {
    const error = faultOf(found);
    error.index = found.start;
    error.lineNumber = found.line;
    error.column = found.column;
    error.message = found.text;
    throw error;
  }
  const ast = revive(found.text);
  eachNode(ast, node => widen(source, node));
  narrow(ast);
  return { ast };
}

/** What is wrong with a program, early errors too, in the order of the text. */
function check(text, { goal, most, levels } = {}) {
  const found = ask('check', text, { goal: chosen(GOALS, 'goal', goal, 'any'), most, levels });
  if (found.status !== TOO_DEEP) return JSON.parse(found.text);
  const { start, end, line, column } = found;
  return [{ start, end, line, column, endLine: line, endColumn: column, message: found.text }];
}

/** A program in its layout. */
function format(text, { goal, width, indent, commas, levels } = {}) {
  return answered(
    ask('format', text, {
      goal: chosen(GOALS, 'goal', goal, 'any'),
      width,
      indent,
      commas: chosen(COMMAS, 'commas', commas, 'all'),
      levels,
    }),
  );
}

/** The names of a program, with their bindings. */
function names(text, { goal, levels } = {}) {
  return JSON.parse(answered(ask('names', text, { goal: chosen(GOALS, 'goal', goal, 'any'), levels })));
}

/** The tokens of a text. */
function tokens(text, { goal } = {}) {
  return JSON.parse(answered(ask('tokens', text, { goal: chosen(GOALS, 'goal', goal, 'any') })));
}

module.exports = { parse, parseForESLint, check, format, names, tokens, version: version() };
