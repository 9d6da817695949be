// Tokens, scopes and trees of expressions as the written grammar of programs has them: what its productions name and other crates say. A token has its text
// and, where it is a part of an expression that is written as a whole, the place is counted in tokens.
'use strict';
const { made } = require('./program_grammar.js');

const KEYWORDS = {
  Await: 'await', Break: 'break', Case: 'case', Catch: 'catch', Class: 'class', Const: 'const', Continue: 'continue', Debugger: 'debugger', Default_: 'default',
  Delete: 'delete', Do: 'do', Else: 'else', Export: 'export', Extends: 'extends', Finally: 'finally', For: 'for', Function: 'function', If: 'if', Import: 'import',
  In: 'in', InstanceOf: 'instanceof', Let: 'let', New: 'new', Return: 'return', Super: 'super', Switch: 'switch', This: 'this', Throw: 'throw', Try: 'try',
  TypeOf: 'typeof', Var: 'var', Void: 'void', While: 'while', With: 'with', Yield: 'yield',
};
const KEYWORD_OF = new Map(Object.entries(KEYWORDS).map(([name, text]) => [text, name]));
const LITERAL_WORDS = { null: 'Null', true: 'True', false: 'False' };
const SIGNS = {
  '(': ['LParen'], ')': ['RParen'], '[': ['LBracket'], ']': ['RBracket'], '{': ['LBrace'], '}': ['RBrace'], ';': ['Semi'], ',': ['Comma'], ':': ['Colon'],
  '.': ['Dot'], '?': ['QuestionMark'], '=>': ['Arrow'], '...': ['DotDotDot'], '#': ['Hash'], '!': ['Bang'], '~': ['Tilde'], '++': ['PlusPlus'], '--': ['MinusMinus'],
  '?.': ['OptionalChain'], '`': ['BackQuote'],
};
const BINARY = {
  '+': 'Add', '-': 'Sub', '*': 'Mul', '/': 'Div', '%': 'Mod', '**': 'Exp', '<': 'Lt', '>': 'Gt', '<=': 'LtEq', '>=': 'GtEq', '==': 'EqEq', '===': 'EqEqEq', '!=': 'NotEq',
  '!==': 'NotEqEq', '<<': 'LShift', '>>': 'RShift', '>>>': 'ZeroFillRShift', '&': 'BitAnd', '|': 'BitOr', '^': 'BitXor', '&&': 'LogicalAnd', '||': 'LogicalOr',
  '??': 'NullishCoalescing',
};
const RESERVED = ['implements', 'interface', 'package', 'private', 'protected', 'public'];

/** The token that a text is: a word, a sign, a number, a string, a regular expression, or a template, as its backquote. */
function tokenOf(text) {
  if (Object.hasOwn(LITERAL_WORDS, text)) {
    return made('Word', made(LITERAL_WORDS[text]));
  }
  if (KEYWORD_OF.has(text)) {
    return made('Word', made('Keyword', made(KEYWORD_OF.get(text))));
  }
  if (/^[\p{ID_Start}$_]/u.test(text)) {
    return made('Word', made('Ident', text));
  }
  if (Object.hasOwn(SIGNS, text)) {
    return made(...SIGNS[text]);
  }
  if (Object.hasOwn(BINARY, text)) {
    return made('BinOp', made(BINARY[text]));
  }
  if (/^\d+n$/.test(text)) {
    return made('BigInt', text);
  }
  if (/^\.?\d/.test(text)) {
    return made('Num', text);
  }
  if (/^['"]/.test(text)) {
    return made('Str', text.slice(1, -1), text);
  }
  if (text.startsWith('`')) {
    return made('BackQuote');
  }
  if (/^\/./.test(text) && text !== '/=') {
    return made('Regex', text, '');
  }
  if (text.endsWith('=')) {
    return made('AssignOp', made(text === '=' ? 'Assign' : text));
  }
  throw new Error(`no token: ${text}`);
}

const isWord = (token, text) => token.constructor_ === 'Word' && token.parts[0].constructor_ === 'Ident' && token.parts[0].parts[0] === text;
const isKeyword = (token, name) =>
  token.constructor_ === 'Word' && token.parts[0].constructor_ === 'Keyword' && token.parts[0].parts[0].constructor_ === name;
const isSign = (token, name) => token.constructor_ === name;
const isBinary = (token, name) => token.constructor_ === 'BinOp' && token.parts[0].constructor_ === name;

/** The text of a word. */
function textOf(word) {
  return word.constructor_ === 'Keyword' ? KEYWORDS[word.parts[0].constructor_] : word.parts[0] ?? word.constructor_.toLowerCase();
}

const none = made('None');
const some = value => made('Some', value);
const spelled = ok => token => span =>
  token.constructor_ === 'Word' && ok(token.parts[0]) ? some({ text: textOf(token.parts[0]), at: span }) : none;

function isReserved(context, word) {
  if (word.constructor_ !== 'Keyword') {
    return word.constructor_ !== 'Ident' || word.parts[0] === 'enum' || (context.strict && RESERVED.includes(word.parts[0]));
  }
  switch (word.parts[0].constructor_) {
    case 'Let':
      return context.strict;
    case 'Await':
      return context.in_async || context.in_static_block || context.strict;
    case 'Yield':
      return context.in_generator || context.strict;
    default:
      return true;
  }
}

const isLet = word => word.constructor_ === 'Keyword' && word.parts[0].constructor_ === 'Let';
const isStrictWord = word => ['let', 'yield', 'await', 'static', ...RESERVED].includes(textOf(word));
const refersWell = (context, word) =>
  !(context.module && isStrictWord(word)) && !(context.in_class_field && textOf(word) === 'arguments');
const mayRefer = context => word => (isLet(word) || !isReserved(context, word)) && refersWell(context, word);

function binds(context, word) {
  const [noYield, noAwait] = [context.in_generator, context.in_async || context.in_static_block || context.module];
  if (word.constructor_ === 'Ident') {
    return word.parts[0] !== 'enum' && !(noYield && word.parts[0] === 'yield');
  }
  const name = word.constructor_ === 'Keyword' ? word.parts[0].constructor_ : '';
  return name === 'Let' || (name === 'Yield' && !noYield) || (name === 'Await' && !noAwait);
}

const mayBind = context => word =>
  binds(context, word) && refersWell(context, word) && !(context.module && ['eval', 'arguments'].includes(textOf(word)));

/** A tree of an expression, of which it is known how it ends. */
function tree(kind, span, last = 'any', writes = true) {
  return { ...made('node', kind, span, made('nil')), last, writes };
}

/** Whether the expression goes on with the token. */
const goesOn = scope => expr => next => {
  const { token } = next;
  const isLink = isSign(token, 'LParen') || isSign(token, 'LBracket') || isSign(token, 'BackQuote');
  const isOperator =
    token.constructor_ === 'BinOp' || (isKeyword(token, 'In') && scope.context.include_in_expr) || isKeyword(token, 'InstanceOf');
  const after = expr.last === 'nothing' ? false : expr.last === 'operators' ? isOperator : isLink || isOperator;
  return after || (token.constructor_ === 'AssignOp' && expr.writes);
};

/** What the grammar of programs names and other crates say. */
const GIVEN = {
  is_text: text => other => text === other,
  no_span: { lo: 0, hi: 0 },
  to: a => b => ({ lo: a.lo, hi: b.hi }),
  in_context: change => scope => ({ ...scope, context: change(scope.context) }),
  is_joined: a => b => a.hi === b.lo,
  items_of: list => list,
  parts: list => list.reduceRight((rest, item) => made('more', made('part', item), rest), made('nothing')),
  binding: scope => spelled(mayBind(scope.context)),
  any_name: () => spelled(() => true),
  may_refer: mayRefer,
  spelled,
  goes_on: goesOn,
  is_async: token => isWord(token, 'async'),
  is_of: token => isWord(token, 'of'),
  is_word: token => token.constructor_ === 'Word',
  is_semi: token => isSign(token, 'Semi'),
  is_lparen: token => isSign(token, 'LParen'),
  is_rparen: token => isSign(token, 'RParen'),
  is_brace: token => isSign(token, 'LBrace'),
  is_rbrace: token => isSign(token, 'RBrace'),
  is_lbracket: token => isSign(token, 'LBracket'),
  is_comma: token => isSign(token, 'Comma'),
  is_colon: token => isSign(token, 'Colon'),
  is_dot: token => isSign(token, 'Dot'),
  is_hash: token => isSign(token, 'Hash'),
  is_star: token => isBinary(token, 'Mul'),
  is_slash: token => isBinary(token, 'Div') || (token.constructor_ === 'AssignOp' && token.parts[0].constructor_ === '/='),
  is_equals: token => token.constructor_ === 'AssignOp' && token.parts[0].constructor_ === 'Assign',
  is_in: token => isKeyword(token, 'In'),
  is_await: token => isKeyword(token, 'Await'),
  is_import: token => isKeyword(token, 'Import'),
  is_class: token => isKeyword(token, 'Class'),
  is_function: token => isKeyword(token, 'Function'),
};

module.exports = { GIVEN, KEYWORDS, tokenOf, tree, isKeyword, isSign, isWord, textOf, mayBind, mayRefer };
