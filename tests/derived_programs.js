// Derives random programs from the written grammar of programs, and asks acorn and V8 whether they are programs and what trees they are. Run by hand.
//
//     node --experimental-vm-modules tests/derived_programs.js [COUNT [SEED]]
//
// The productions are read from crates/program_grammar. Each program is derived with its tree; semicolons are left out where they may be. Prints how many
// programs were derived, how often each production was used at least, and each program that acorn or V8 refuses, or that acorn has another tree of. acorn reads
// without the early errors that it tells as such; others are listed below (EARLY).
'use strict';
const vm = require('vm');
const { acorn } = require('./acorn.js');
const { readGrammar, made, matches, apply } = require('./program_grammar.js');
const { GIVEN, KEYWORDS, mayRefer, tokenOf, tree } = require('./program_tokens.js');
const { differs, listOf } = require('./program_trees.js');

const GOALS = ['Script', 'Module', 'CommonJs'];
/** What acorn tells of a program that is an early error (ECMA-262, 17) and no fault of the grammar. */
const EARLY = [
  /^Unsyntactic (break|continue)/, /^Label '.*' is already declared/, /^'with' in strict mode/, /^Identifier '.*' has already been declared/,
  /^Duplicate (export|constructor|__proto__)/, /^Export '.*' is not defined/, /^Multiple default clauses/, /^(getter|setter|Getter|Setter) (should|can|cannot)/i,
  /^Constructor can't/i, /^Classes? (may not|can't)/i, /^Private field/, /^Illegal 'use strict'/, /^Binding (let|eval|arguments|\w+) in strict/, /^Assigning to/,
  /^let is disallowed/, /^The keyword '\w+' is reserved/, /^Cannot use keyword '(await|yield)'/, /^Can not use 'arguments'/, /^Cannot use 'arguments'/,
  /^Deleting local variable/, /^Identifier directly after number/, /^An export name/, /^Argument name clash/, /^Missing initializer in destructuring/,
  /^'?super'? /, /^Cannot use await in class static/, /^'return' outside of function/,
  // acorn looks at the parameter of a setter that has none.
  /^Cannot read properties/, /^Await expression cannot/, /^Yield expression cannot/, /^Cannot use 'import.meta'/, /^Unexpected eval or arguments/, /^Redefinition of/, /^Use of future reserved/,
];

class Fail extends Error {}

/** A generator of numbers that a seed decides. */
function randomFrom(seed) {
  let state = seed >>> 0 || 1;
  return () => {
    state = (state + 0x6d2b79f5) >>> 0;
    let t = Math.imul(state ^ (state >>> 15), state | 1);
    t ^= t + Math.imul(t ^ (t >>> 7), t | 61);
    return ((t ^ (t >>> 14)) >>> 0) / 4294967296;
  };
}

const NAMES = ['a', 'b', 'c', 'x', 'y', 'of', 'as', 'from', 'get', 'set', 'static', 'async', 'let', 'yield', 'await', 'constructor', 'undefined', 'eval'];
const POOL = [
  ...Object.values(KEYWORDS), ...NAMES, 'null', 'true', 'false', '(', ')', '[', ']', '{', '}', ';', ',', ':', '.', '#', '=', '*', '1', "'s'", '"use strict"', "'m'",
].map(text => ({ text, token: tokenOf(text) }));

/**
 * Whether a derivation has what the grammar leaves to early errors, as docs/PROGRAM_GRAMMAR.md lists it: a function as a part of a statement (B.3.1, B.3.3), `return`
 * in a static block of a class (15.7.1), and names that are exported without a source and are no references (16.2.3.1).
 */
function isListed({ name }, { b, ns, f, c }) {
  if (name === 'st-function') {
    return b;
  }
  if (name === 'st-return') {
    return c.context.in_static_block;
  }
  const isReference = text => mayRefer(c.context)(tokenOf(text).parts[0]);
  const isLocal = name === 'export-list' && f.parts[0].constructor_ === 'none';
  return isLocal && listOf(ns.parts[2]).some(item => !isReference(listOf(item.parts[2])[0].parts[0].parts[0]));
}

class Deriver {
  constructor(grammar, random) {
    this.grammar = grammar;
    this.random = random;
    this.options = new Map();
    this.used = new Map();
  }

  pick(list) {
    return list[Math.floor(this.random() * list.length)];
  }

  chance(part) {
    return this.random() < part;
  }

  /** A program of a goal: its tokens and its tree. */
  program(goal) {
    const { globals } = this.grammar;
    this.tokens = [];
    this.tests = [];
    this.uses = [];
    this.isListed = false;
    this.budget = 4 + Math.floor(this.random() * 60);
    const context = {
      Script: globals.script_context,
      Module: { ...globals.module_context, in_async: true },
      CommonJs: globals.function_block(false)(false)(globals.script_context),
    }[goal];
    const items = this.symbol(made('Directives', goal === 'Module'), { context });
    if (!this.isListOfText() || !this.settle()) {
      throw new Fail('a token that may not follow');
    }
    this.uses.forEach(name => this.used.set(name, (this.used.get(name) ?? 0) + 1));
    return { goal, tokens: this.tokens, items, isListed: this.isListed };
  }

  /** Whether no slash would be read as a division: which of the two it is says what is before it. */
  isListOfText() {
    return !this.tokens.some(({ text }, index) => /^\/./.test(text) && /[\w$'"`\])]$|\+\+$|--$/.test(this.tokens[index - 1]?.text ?? ''));
  }

  /** Puts line breaks so that what may not follow doesn't. */
  settle() {
    for (let turn = 0; turn < 40; turn += 1) {
      const failing = this.tests.find(test => !this.isCalm(test));
      if (!failing) {
        return true;
      }
      const at = failing.at + (failing.isTwo && this.chance(0.5) ? 1 : 0);
      if (!this.tokens[at] || this.tokens[at].isInside) {
        return false;
      }
      this.tokens[at].had_line_break = !this.tokens[at].had_line_break;
    }
    return false;
  }

  /** Drops the tests from there on that pass however lines end; fails where one passes in no way. */
  drop(from) {
    const kept = this.tests.slice(from).filter(test => {
      const [first, second] = [this.tokens[test.at], this.tokens[test.at + 1]];
      if (!first || !second) {
        return true;
      }
      const ways = [first, { ...first, had_line_break: !first.had_line_break }].flatMap(one => [[one, second], [one, { ...second, had_line_break: !second.had_line_break }]]);
      const passed = ways.filter(([one, two]) => (test.isTwo ? !apply(apply(test.test, one), two) : !apply(test.test, one)));
      if (passed.length === 0) {
        throw new Fail('a token that may not follow');
      }
      return passed.length < ways.length;
    });
    this.tests.length = from;
    this.tests.push(...kept);
  }

  isCalm({ at, test, isTwo }) {
    const [first, second] = [this.tokens[at], this.tokens[at + 1]];
    if (!first || (isTwo && !second)) {
      return true;
    }
    return isTwo ? !apply(apply(test, first), second) : !apply(test, first);
  }

  put(text, isInside = false) {
    const span = { lo: this.tokens.length, hi: this.tokens.length + 1 };
    const isGlued = this.tokens.at(-1)?.text === '#';
    this.tokens.push({ text, token: tokenOf(text), span, isInside: isInside || isGlued, isGlued, had_line_break: !isInside && !isGlued && this.chance(0.25) });
    return span;
  }

  /** What a symbol derives, by one of its productions. */
  symbol(symbol, scope) {
    this.budget -= 1;
    const { productions, globals } = this.grammar;
    const fitting = [];
    for (const production of productions) {
      const names = Object.create(globals);
      if (matches(production.symbol, symbol, names)) {
        names.c = scope;
        fitting.push({ production, names, order: this.random() + this.cost(production) });
      }
    }
    fitting.sort((a, b) => a.order - b.order);
    const [tokens, tests, uses] = [this.tokens.length, this.tests.length, this.uses.length];
    for (const { production, names } of fitting) {
      try {
        const before = this.within;
        this.within = production.name;
        const value = this.side(production, names);
        this.within = before;
        this.drop(tests);
        this.isListed ||= isListed(production, names);
        this.uses.push(production.name);
        return value;
      } catch (error) {
        if (!(error instanceof Fail) || this.budget < -400) {
          throw error;
        }
        this.tokens.length = tokens;
        this.tests.length = tests;
        this.uses.length = uses;
      }
    }
    throw new Fail(`no production of ${symbol.constructor_}`);
  }

  /** Long right-hand sides come late where the program is long enough. */
  cost(production) {
    if (this.budget > 0) {
      return /-more$|^(class|field|st-class)/.test(production.name) ? -0.5 : 0;
    }
    const symbols = production.steps.filter(step => step.kind === 'symbol' || step.kind === 'other').length;
    return symbols + (/-(some|more)$/.test(production.name) ? 2 : 0);
  }

  side({ steps }, names) {
    let value;
    for (const step of steps) {
      value = this.step(step, names);
      if (step.pattern) {
        matches(step.pattern, value, names);
      }
    }
    return value;
  }

  step(step, names) {
    const parts = step.parts.map(part => part(names));
    const at = this.tokens.length;
    switch (step.kind) {
      case 'symbol':
        return this.symbol(parts[0], parts[1]);
      case 'token':
        return this.put(this.pick(this.optionsOf(step, names, token => apply(parts[0], token))));
      case 'one':
        return this.one(parts[0]);
      case 'ahead':
      case 'ahead_two':
        this.tests.push({ at, test: parts[0], isTwo: step.kind === 'ahead_two' });
        return undefined;
      case 'must':
        if (!parts[0]) {
          throw new Fail('a condition');
        }
        return undefined;
      case 'other':
        return this.other(parts[0], parts[1]);
      default:
        return parts[0];
    }
  }

  /** The texts of tokens that pass a test. */
  optionsOf(step, names, test) {
    const key = `${step.text} ${names.m?.constructor_ ?? ''}`;
    if (!this.options.has(key)) {
      this.options.set(key, POOL.filter(({ token }) => test(token)).map(({ text }) => text));
    }
    return this.options.get(key);
  }

  /** A token that means something. */
  one(means) {
    const span = { lo: this.tokens.length, hi: this.tokens.length + 1 };
    for (let turn = 0; turn < 30; turn += 1) {
      const { text, token } = this.chance(0.5) ? this.pick(POOL) : { text: 'a', token: tokenOf('a') };
      const found = apply(apply(means, token), span);
      if (found.constructor_ === 'Some') {
        this.put(text);
        return found.parts[0];
      }
    }
    throw new Fail('no name');
  }

  /** What another grammar derives, or the hook reads, and its place. */
  other(part, scope) {
    const lo = this.tokens.length;
    const value = this.part(part, scope);
    return [value, { lo, hi: this.tokens.length }];
  }

  part({ constructor_: kind, parts: [flag] }, scope) {
    const inner = { context: { ...scope.context, include_in_expr: true, expr_ctx: this.grammar.globals.script_context.expr_ctx } };
    switch (kind) {
      case 'function':
        return this.named(flag, this.function_(inner));
      case 'class':
        return this.named(flag, this.symbol(made('Class'), inner));
      case 'block':
        return this.symbol(made(this.within === 'member-static-block' ? 'StaticBlock' : 'FunctionBlock'), inner);
      case 'params':
        return this.params(scope);
      case 'pat':
        return this.pattern(scope);
      case 'key':
        return this.key(scope);
      case 'head':
        return this.head(scope, flag);
      case 'heritage':
        return this.written([['a'], ['a', '.', 'b'], ['(', 'a', ')'], ['null'], ['class', '{', '}'], ['a', '(', ')']]);
      default:
        return this.expression(scope, kind === 'expr');
    }
  }

  /** A function: the hook reads one only where `async` is on the line of `function`. */
  function_(scope) {
    const at = this.tokens.length;
    const code = this.symbol(made('Function'), scope);
    if (this.tokens[at].text === 'async') {
      Object.assign(this.tokens[at + 1], { isInside: true, had_line_break: false });
    }
    return code;
  }

  /** A function or a class, which has a name where one is wanted. */
  named(isWanted, code) {
    if (isWanted && code.parts[2].parts[0].parts[0].constructor_ === 'none') {
      throw new Fail('a name is wanted');
    }
    return code;
  }

  /** Tokens that are written as a whole: one of these lists. */
  written(lists, kind = made('other'), last, writes) {
    const lo = this.tokens.length;
    this.pick(lists).forEach((text, index) => this.put(text, index > 0));
    return tree(kind, { lo, hi: this.tokens.length }, last, writes);
  }

  expression(scope, mayBeSequence) {
    const { context } = scope;
    const lists = [
      [['a'], 'any', true], [['a', '.', 'b'], 'any', true], [['f', '(', '1', ')'], 'any', true], [['1'], 'any', true], [['a', '+', 'b'], 'any', false],
      [['-', 'a'], 'any', false], [['a', '++'], 'operators', false], [['--', 'a'], 'any', false], [['a', '=', 'b'], 'any', true], [['(', 'a', ')'], 'any', true],
      [['[', 'a', ']'], 'any', true], [['(', 'a', ')', '=>', 'b'], 'any', true], [['a', '=>', '{', '}'], 'nothing', false], [['`t`'], 'any', true], [['/r/'], 'any', true],
      [['new', 'A', '(', ')'], 'any', true], [['this'], 'any', true], [['a', '?', 'b', ':', 'c'], 'any', true], [['typeof', 'a'], 'any', false],
      [['a', 'instanceof', 'b'], 'any', false], [['async', '(', ')', '=>', 'a'], 'any', true], [['async'], 'any', true], [['!', 'a', '++'], 'operators', false],
      [['a', '=', 'b', '=>', '{', '}'], 'nothing', false], [['a', '?.', 'b'], 'any', true], [['null'], 'any', true], [['{', 'a', ':', '1', '}'], 'any', true],
      [['function', '(', ')', '{', '}'], 'any', true], [['class', '{', '}'], 'any', true], [['+', '+', 'a'], 'any', false], [['of'], 'any', true], [['get'], 'any', true],
    ];
    if (mayBeSequence) {
      lists.push([['a', ',', 'b'], 'any', true], [['a', ',', 'b', '++'], 'operators', false]);
    }
    if (context.include_in_expr) {
      lists.push([['a', 'in', 'b'], 'any', false]);
    }
    if (context.in_generator && !context.in_parameters && !context.in_class_field) {
      lists.push([['yield'], 'nothing', false], [['yield', 'a'], 'any', true], [['yield', '*', 'a'], 'any', true]);
    }
    if (context.in_async && !context.in_parameters && !context.in_class_field) {
      lists.push([['await', 'a'], 'any', true]);
    }
    if (!context.strict) {
      lists.push([['let'], 'any', true]);
    }
    if (this.chance(0.12)) {
      const text = this.pick(["'s'", "'use strict'", '"use strict"', '"t"']);
      return this.written([[text]], made('str', text.slice(1, -1), text));
    }
    const [list, last, writes] = this.pick(lists);
    return this.written([list], made('other'), last, writes);
  }

  pattern({ context }) {
    const names = ['a', 'b', 'x', 'of', 'get', ...(context.in_async || context.strict ? [] : ['await']), ...(context.strict ? [] : ['yield', 'let'])];
    if (this.chance(0.7)) {
      const name = this.pick(names);
      return this.written([[name]], made('ident', name));
    }
    return this.written([['[', 'a', ']'], ['{', 'a', '}'], ['{', 'a', ':', 'b', '}'], ['[', 'a', '=', '1', ',', '...', 'b', ']'], ['{', '}']]);
  }

  /** Parameters, with the parenthesis that closes them. */
  params(scope) {
    const list = [];
    const names = ['p', 'q', 'r'];
    const count = Math.floor(this.random() * 3);
    for (let index = 0; index < count; index += 1) {
      const lists = [[names[index]], [names[index], '=', '1'], ['[', names[index], ']'], ['{', names[index], '}'], ...(index === count - 1 ? [['...', names[index]]] : [])];
      list.push(this.written(lists));
      if (index < count - 1) {
        this.put(',');
      }
    }
    this.put(')');
    return list;
  }

  key(scope) {
    const text = this.pick(['a', 'b', 'get', 'set', 'static', 'async', 'constructor', 'if', "'k'", "'constructor'", '1', '[']);
    if (text === '[') {
      return this.written([['[', 'a', ']']]);
    }
    return this.written([[text]], text.startsWith("'") ? made('str', text.slice(1, -1), text) : made('name_kind', text));
  }

  /** What the head of a `for` begins with: the word after it decides what it is. */
  head(scope, isAwait) {
    if (isAwait || this.chance(0.6)) {
      const found = this.written([['a'], ['a', '.', 'b'], ['[', 'a', ']'], ['{', 'a', '}'], ['a', '[', '0', ']']]);
      this.tests.push({ at: this.tokens.length, test: next => !(GIVEN.is_of(next.token) || GIVEN.is_in(next.token)), isTwo: false });
      return made('for_target', found);
    }
    const found = this.expression({ context: { ...scope.context, include_in_expr: false } }, true);
    this.tests.push({ at: this.tokens.length, test: next => GIVEN.is_of(next.token) || GIVEN.is_in(next.token), isTwo: false });
    return made('for_expr', found);
  }
}

/** The text of tokens; notes where each lies. */
function textOf(tokens) {
  let text = '';
  for (const [index, token] of tokens.entries()) {
    text += index === 0 || token.isGlued ? '' : token.had_line_break ? '\n' : ' ';
    token.start = text.length;
    text += token.text;
    token.end = text.length;
  }
  return text;
}

const Lenient = acorn.Parser.extend(
  Parser =>
    class extends Parser {
      raiseRecoverable() {}
    },
);

function options(goal) {
  return { ecmaVersion: 'latest', sourceType: goal === 'Module' ? 'module' : 'script', allowReturnOutsideFunction: goal === 'CommonJs', preserveParens: true };
}

/** What acorn refuses, if it does. */
function tried(read) {
  try {
    return { tree: read() };
  } catch (error) {
    return { message: error.message };
  }
}

function isForV8(text, goal) {
  try {
    if (goal === 'Module') {
      new vm.SourceTextModule(text);
    } else if (goal === 'CommonJs') {
      vm.compileFunction(text);
    } else {
      new vm.Script(text);
    }
    return undefined;
  } catch (error) {
    return error.message;
  }
}

/** What is wrong with a program that was derived; nothing, if nothing is. */
function faultOf({ goal, tokens, items, isListed }, text) {
  const hasAttributes = tokens.some((token, index) => token.text === 'with' && /^['"]/.test(tokens[index - 1]?.text ?? ''));
  if (hasAttributes || isListed) {
    return undefined;
  }
  const lenient = tried(() => Lenient.parse(text, options(goal)));
  if (!lenient.tree) {
    return EARLY.some(early => early.test(lenient.message)) ? undefined : `acorn: ${lenient.message}`;
  }
  const other = differs(items, lenient.tree, tokens);
  if (other) {
    return `tree: ${other}`;
  }
  const full = tried(() => acorn.parse(text, options(goal)));
  const message = full.tree && isForV8(text, goal);
  return message ? `V8: ${message}` : undefined;
}

function main([count = '200000', seed = '1']) {
  const deriver = new Deriver(readGrammar(GIVEN), randomFrom(Number(seed)));
  const told = new Map();
  let [derived, dropped, wrong] = [0, 0, 0];
  while (derived < Number(count)) {
    const goal = deriver.pick(GOALS);
    let program;
    try {
      program = deriver.program(goal);
    } catch (error) {
      if (!(error instanceof Fail)) {
        throw error;
      }
      dropped += 1;
      continue;
    }
    derived += 1;
    const text = textOf(program.tokens);
    const fault = faultOf(program, text);
    if (fault) {
      wrong += 1;
      const kind = fault.replace(/\(\d+:\d+\)/, '').trim();
      told.set(kind, (told.get(kind) ?? 0) + 1);
      if (told.get(kind) <= 3) {
        console.log(`${goal}: ${fault}\n${text.replace(/^/gm, '    ')}`);
      }
    }
  }
  const uses = deriver.grammar.productions.map(({ name }) => [name, deriver.used.get(name) ?? 0]);
  console.log(`productions that were never used: ${uses.filter(([, many]) => !many).map(([name]) => name).join(' ') || 'none'}`);
  console.log(`least used: ${uses.sort((a, b) => a[1] - b[1]).slice(0, 5).map(([name, many]) => `${name} ${many}`).join(', ')}`);
  console.log(`${derived} programs derived, ${wrong} with a difference (${dropped} dropped)`);
  process.exitCode = wrong ? 1 : 0;
}

if (require.main === module) {
  main(process.argv.slice(2));
}

module.exports = { Lenient, EARLY, isListed, options, textOf, randomFrom, tried };
