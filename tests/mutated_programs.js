// Reads mutants of real programs by the written grammar of programs, and asks acorn whether they are programs. Run by hand.
//
//     node tests/mutated_programs.js COUNT FOLDER ..
//
// Statements of the files of the folders are taken, and one token or two of each is left out, doubled, put elsewhere or another one. The productions are read from
// crates/program_grammar; expressions, patterns and parameters are acorn's. Prints how many were read by both, refused by both, and each on which they differ,
// but for what docs/PROGRAM_GRAMMAR.md lists. Statements with templates, regular expressions or escapes in words are left out.
'use strict';
const fs = require('fs');
const path = require('path');
const { acorn } = require('./acorn.js');
const { readGrammar, made, matches, apply } = require('./program_grammar.js');
const { GIVEN, KEYWORDS, tokenOf, tree } = require('./program_tokens.js');
const { Lenient, EARLY, isListed, options, randomFrom, textOf, tried } = require('./derived_programs.js');
const { differs } = require('./program_trees.js');

const GOALS = ['Script', 'Module', 'CommonJs'];
const FLAGS = { in_function: 2, in_async: 6, in_generator: 10, allow_direct_super: 64, in_static_block: 256 };
const OTHERS = [...Object.values(KEYWORDS), 'a', 'of', 'as', 'from', 'get', 'set', 'static', 'async', 'null', '(', ')', '[', ']', '{', '}', ';', ',', ':', '.', '=', '*', '#', '1', "'s'", '=>', '+', '++', '...', '?'];

/** How an expression ends. */
function lastOf(node) {
  switch (node.type) {
    case 'UpdateExpression':
      return node.prefix ? lastOf(node.argument) : 'operators';
    case 'YieldExpression':
      return node.argument ? lastOf(node.argument) : 'nothing';
    case 'ArrowFunctionExpression':
      return node.body.type === 'BlockStatement' ? 'nothing' : lastOf(node.body);
    case 'UnaryExpression':
    case 'AwaitExpression':
      return lastOf(node.argument);
    case 'BinaryExpression':
    case 'LogicalExpression':
    case 'AssignmentExpression':
      return lastOf(node.right);
    case 'ConditionalExpression':
      return lastOf(node.alternate);
    case 'SequenceExpression':
      return lastOf(node.expressions.at(-1));
    default:
      return 'any';
  }
}

/** Whether an operator that writes is read after an expression. */
function writesTo(node) {
  switch (node.type) {
    case 'YieldExpression':
      return node.argument !== null && writesTo(node.argument);
    case 'ArrowFunctionExpression':
      return node.body.type !== 'BlockStatement' && writesTo(node.body);
    case 'AssignmentExpression':
      return writesTo(node.right);
    case 'ConditionalExpression':
      return writesTo(node.alternate);
    case 'SequenceExpression':
      return writesTo(node.expressions.at(-1));
    default:
      return !/^(Binary|Logical|Unary|Update)Expression$/.test(node.type);
  }
}

class Refused extends Error {}

/** Reads tokens by the productions. */
class Reader {
  constructor(grammar, goal, tokens, text) {
    Object.assign(this, { grammar, goal, tokens, text, listed: false });
    this.starts = new Map(tokens.map(({ start }, index) => [start, index]));
    this.starts.set(text.length, tokens.length);
  }

  /** The items of the program that all tokens are. */
  program() {
    const { globals } = this.grammar;
    const context = {
      Script: globals.script_context,
      Module: { ...globals.module_context, in_async: true },
      CommonJs: globals.function_block(false)(false)(globals.script_context),
    }[this.goal];
    this.at = 0;
    const items = this.symbol(made('Directives', this.goal === 'Module'), { context });
    if (this.at < this.tokens.length) {
      throw new Refused('more tokens');
    }
    return items;
  }

  symbol(symbol, scope) {
    const { at, listed } = this;
    for (const production of this.grammar.productions) {
      const names = Object.create(this.grammar.globals);
      if (!matches(production.symbol, symbol, names)) {
        continue;
      }
      names.c = scope;
      this.at = at;
      this.listed = listed;
      try {
        return this.side(production, names);
      } catch (error) {
        if (!(error instanceof Refused)) {
          throw error;
        }
      }
    }
    throw new Refused(symbol.constructor_);
  }

  side(production, names) {
    let value;
    for (const step of production.steps) {
      this.within = production.name;
      value = this.step(step, step.parts.map(part => part(names)));
      if (step.pattern) {
        matches(step.pattern, value, names);
      }
    }
    this.listed ||= isListed(production, names);
    return value;
  }

  step({ kind }, parts) {
    const token = this.tokens[this.at];
    const second = this.tokens[this.at + 1];
    switch (kind) {
      case 'symbol':
        return this.symbol(parts[0], parts[1]);
      case 'token':
        return this.take(token && apply(parts[0], token.token), token?.span);
      case 'one': {
        const found = token && apply(apply(parts[0], token.token), token.span);
        return this.take(found?.constructor_ === 'Some', found?.parts[0]);
      }
      case 'ahead':
        return this.must(!token || !apply(parts[0], token));
      case 'ahead_two':
        return this.must(!second || !apply(apply(parts[0], token), second));
      case 'must':
        return this.must(parts[0]);
      case 'other': {
        const lo = this.at;
        const value = this.part(parts[0], parts[1]);
        return [value, { lo, hi: this.at }];
      }
      default:
        return parts[0];
    }
  }

  must(is) {
    if (!is) {
      throw new Refused('a condition');
    }
  }

  take(is, value) {
    this.must(is);
    this.at += 1;
    return value;
  }

  part({ constructor_: kind, parts: [flag] }, scope) {
    const inner = { context: { ...scope.context, include_in_expr: true, expr_ctx: this.grammar.globals.script_context.expr_ctx } };
    const token = this.tokens[this.at]?.token;
    this.must(token !== undefined);
    switch (kind) {
      case 'function': {
        const next = this.tokens[this.at + 1];
        this.must(GIVEN.is_function(token) || (GIVEN.is_async(token) && next && GIVEN.is_function(next.token) && !next.had_line_break));
        return this.named(flag, this.symbol(made('Function'), inner));
      }
      case 'class':
        this.must(GIVEN.is_class(token));
        return this.named(flag, this.symbol(made('Class'), inner));
      case 'block':
        this.must(GIVEN.is_brace(token));
        return this.symbol(made(this.within === 'member-static-block' ? 'StaticBlock' : 'FunctionBlock'), inner);
      default:
        return this.byAcorn(kind, flag, scope.context);
    }
  }

  named(isWanted, code) {
    this.must(!isWanted || code.parts[2].parts[0].parts[0].constructor_ !== 'none');
    return code;
  }

  /** What acorn reads here, of that kind. */
  byAcorn(kind, flag, context) {
    const lo = this.at;
    const first = this.tokens[kind === 'params' ? lo - 1 : lo];
    const parser = new Lenient(options(this.goal), this.text, first.start);
    parser.strict = context.strict;
    const flags = Object.keys(FLAGS).reduce((all, name) => (context[name] ? all | FLAGS[name] : all), 0);
    if (flags) {
      parser.enterScope(flags);
    }
    const found = tried(() => {
      parser.nextToken();
      return this.read(parser, kind, flag, context);
    });
    const end = this.starts.get(parser.start);
    this.must(found.tree !== undefined && end !== undefined && end > (kind === 'params' ? lo - 1 : lo));
    this.at = end;
    return this.valueOf(kind, found.tree, { lo, hi: end });
  }

  read(parser, kind, flag, context) {
    const forInit = !context.include_in_expr;
    switch (kind) {
      case 'expr':
        return parser.parseExpression(forInit);
      case 'assign':
        return parser.parseMaybeAssign(forInit);
      case 'heritage':
        return parser.parseExprSubscripts(null, false);
      case 'pat':
        return parser.parseBindingAtom();
      case 'key': {
        const property = {};
        parser.parsePropertyName(property);
        return property.key;
      }
      case 'params': {
        const node = {};
        parser.initFunction(node);
        parser.parseFunctionParams(node);
        return node.params;
      }
      default:
        return this.head(parser, flag);
    }
  }

  head(parser, isAwait) {
    const faults = { shorthandAssign: -1, trailingComma: -1, parenthesizedAssign: -1, parenthesizedBind: -1, doubleProto: -1 };
    const isLet = parser.isContextual('let');
    const isAsync = parser.isContextual('async');
    const found = parser.parseExpression(isAwait ? 'await' : true, faults);
    const isOf = parser.isContextual('of');
    if (parser.type.keyword === 'in' || isOf) {
      if (isOf && (isLet || (isAsync && !isAwait && found.type === 'Identifier'))) {
        throw new Refused('of');
      }
      parser.toAssignable(found, false, faults);
      parser.checkLValPattern(found);
      return { target: found };
    }
    parser.checkExpressionErrors(faults, true);
    return { expr: found };
  }

  valueOf(kind, found, span) {
    switch (kind) {
      case 'params':
        return found.map(node => tree(made('other'), this.spanOf(node)));
      case 'key':
        return tree(this.keyKind(found, span), span);
      case 'head':
        return found.target ? made('for_target', tree(made('other'), span)) : made('for_expr', tree(made('other'), span, lastOf(found.expr), writesTo(found.expr)));
      case 'pat':
        return tree(found.type === 'Identifier' ? made('ident', found.name) : made('other'), span);
      default: {
        const isString = found.type === 'Literal' && typeof found.value === 'string';
        return tree(isString ? made('str', found.value, found.raw) : made('other'), span, lastOf(found), writesTo(found));
      }
    }
  }

  keyKind(key, { lo }) {
    const { text } = this.tokens[lo];
    if (text === '[') {
      return made('other');
    }
    return key.type === 'Identifier' ? made('name_kind', key.name) : typeof key.value === 'string' ? made('str', key.value, key.raw) : made('other');
  }

  spanOf({ start, end }) {
    let hi = this.starts.get(start);
    while (this.tokens[hi] && this.tokens[hi].end < end) {
      hi += 1;
    }
    return { lo: this.starts.get(start), hi: hi + 1 };
  }
}

/** The tokens of a statement; nothing, if it has such as are left out. */
function tokensOf(text, goal) {
  const tokens = [];
  let line = 1;
  for (const token of acorn.tokenizer(text, { ...options(goal), locations: true })) {
    const own = text.slice(token.start, token.end);
    if (/^[/`]|\\|^0\d|[^\x20-\x7e]/.test(own) || ['template', '${', '`', 'regexp'].includes(token.type.label)) {
      return undefined;
    }
    const had_line_break = token.loc.start.line > line;
    line = token.loc.end.line;
    const parts = own.startsWith('#') ? ['#', own.slice(1)] : [own];
    parts.forEach((part, index) => tokens.push({ text: part, had_line_break: had_line_break && index === 0, isGlued: index > 0 }));
  }
  return tokens;
}

/** Statements of a file, of few tokens. */
function statementsOf(text) {
  const goal = GOALS.find(goal => tried(() => acorn.parse(text, { ...options(goal), allowHashBang: true })).tree);
  const found = [];
  const visit = node => {
    if (!node || typeof node.type !== 'string') {
      return;
    }
    if (/Statement$|Declaration$/.test(node.type) && node.end - node.start < 500) {
      found.push(text.slice(node.start, node.end));
    }
    Object.values(node).flat().forEach(visit);
  };
  if (goal) {
    visit(acorn.parse(text, { ...options(goal), allowHashBang: true }));
  }
  return found.map(text => ({ text, goal }));
}

/** The tokens with a change or two. */
function mutated(tokens, random) {
  const list = tokens.map(token => ({ ...token }));
  const changes = random() < 0.5 ? 1 : 2;
  for (let change = 0; change < changes && list.length; change += 1) {
    const at = Math.floor(random() * list.length);
    const text = OTHERS[Math.floor(random() * OTHERS.length)];
    const ways = [
      () => list.splice(at, 1),
      () => list.splice(at, 0, { ...list[at] }),
      () => list.splice(at, 2, ...list.slice(at, at + 2).reverse()),
      () => list.splice(at, 1, { ...list[at], text }),
      () => list.splice(at, 0, { text, had_line_break: random() < 0.3 }),
      () => (list[at].had_line_break = !list[at].had_line_break),
    ];
    ways[Math.floor(random() * ways.length)]();
  }
  list.forEach((token, index) => (token.isGlued = list[index - 1]?.text === '#' && !token.had_line_break));
  return list;
}

/** What acorn and the grammar say of tokens. */
function compare(grammar, goal, tokens) {
  const text = textOf(tokens);
  tokens.forEach((token, index) => Object.assign(token, { token: tokenOf(token.text), span: { lo: index, hi: index + 1 } }));
  const lenient = tried(() => Lenient.parse(text, options(goal)));
  const reader = new Reader(grammar, goal, tokens, text);
  let items;
  try {
    items = reader.program();
  } catch (error) {
    if (!(error instanceof Refused)) {
      throw error;
    }
  }
  if (items && lenient.tree) {
    const other = reader.listed ? undefined : differs(items, lenient.tree, tokens);
    return other ? `tree: ${other}` : 'read';
  }
  if (!items && !lenient.tree) {
    return 'refused';
  }
  if (items) {
    return reader.listed || EARLY.some(early => early.test(lenient.message)) ? 'early' : `acorn alone refuses: ${lenient.message}`;
  }
  if (!tried(() => acorn.parse(text, options(goal))).tree) {
    return 'refused';
  }
  return isBeforeIn(lenient.tree) ? 'early' : 'acorn alone reads';
}

/** Whether a value is before `in` (B.3.5), which docs/PROGRAM_GRAMMAR.md lists. */
function isBeforeIn(node) {
  if (Array.isArray(node)) {
    return node.some(isBeforeIn);
  }
  if (!node || typeof node.type !== 'string') {
    return false;
  }
  return (node.type === 'ForInStatement' && Boolean(node.left.declarations?.[0].init)) || Object.values(node).some(isBeforeIn);
}

function filesOf(folder) {
  return fs.readdirSync(folder, { withFileTypes: true }).flatMap(entry => {
    const at = path.join(folder, entry.name);
    return entry.isDirectory() ? filesOf(at) : /\.[cm]?js$/.test(entry.name) ? [at] : [];
  });
}

function main([count, ...folders]) {
  const random = randomFrom(7);
  const grammar = readGrammar(GIVEN);
  const files = folders.flatMap(filesOf);
  const counts = new Map();
  const shown = new Map();
  let made_ = 0;
  while (made_ < Number(count)) {
    const file = files[Math.floor(random() * files.length)];
    const statements = statementsOf(fs.readFileSync(file, 'utf8'));
    for (let turn = 0; turn < 60 && statements.length && made_ < Number(count); turn += 1) {
      const { text, goal } = statements[Math.floor(random() * statements.length)];
      const tokens = tried(() => tokensOf(text, goal)).tree;
      if (!tokens) {
        continue;
      }
      const mutant = mutated(tokens, random);
      const said = compare(grammar, random() < 0.2 ? GOALS[Math.floor(random() * 3)] : goal, mutant);
      made_ += 1;
      counts.set(said, (counts.get(said) ?? 0) + 1);
      const kind = said.replace(/\d+/g, '');
      shown.set(kind, (shown.get(kind) ?? 0) + 1);
      if (!['read', 'refused', 'early'].includes(said) && shown.get(kind) <= 4) {
        console.log(`${goal}: ${said}\n${textOf(mutant).replace(/^/gm, '    ')}`);
      }
    }
  }
  const of = said => counts.get(said) ?? 0;
  const others = made_ - of('read') - of('refused') - of('early');
  console.log(`${made_} mutants: ${of('read')} read by both, ${of('refused')} refused by both, ${of('early')} with an early error; ${others} others`);
  process.exitCode = others ? 1 : 0;
}

if (require.main === module) {
  main(process.argv.slice(2));
}
