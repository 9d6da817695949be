// Trees that acorn reads, printed as the clients print theirs.
//
// Nothing here comes from the parser that is tested: a text is read by acorn, and each of its nodes is written in the
// notation of swc_print (expressions and patterns) and statement_trees (statements). Places are those of acorn.
'use strict';

const { isBare, isProgram, parseProgram } = require('./acorn.js');

/** Whether a member or a call is part of an optional chain, from its first `?.` on. */
function isInChain(node) {
  for (;;) {
    if (node.optional) {
      return true;
    }
    if (node.type === 'MemberExpression') {
      node = node.object;
    } else if (node.type === 'CallExpression') {
      node = node.callee;
    } else {
      return false;
    }
  }
}

/** Prints expressions and patterns, and keeps the functions, classes and blocks that it meets. */
class Printer {
  constructor(text) {
    this.text = text;
    this.bodies = [];
  }

  /** Keeps a body, which is printed as the number of tokens in the tree: none. */
  kept(body) {
    this.bodies.push(body);
    return '<0>';
  }

  list(nodes, print) {
    return nodes.map(node => (node ? print.call(this, node) : '-')).join(', ');
  }

  expr(node) {
    if (!(node.type in EXPRESSIONS)) {
      throw new Error(`no expression: ${node.type}`);
    }
    return EXPRESSIONS[node.type](this, node);
  }

  item(node) {
    return node.type === 'SpreadElement' ? `...${this.expr(node.argument)}` : this.expr(node);
  }

  args(nodes) {
    return `[${this.list(nodes, this.item)}]`;
  }

  /** A key as a property has it. */
  key(prop) {
    return prop.computed ? `[${this.expr(prop.key)}]` : this.expr(prop.key);
  }

  member(node) {
    const prop = node.computed ? `[${this.expr(node.property)}]` : `.${this.expr(node.property)}`;
    if (node.object.type === 'Super') {
      return `SuperProp(${prop})`;
    }
    return `Member(${this.expr(node.object)}, ${prop})`;
  }

  link(node, text) {
    return isInChain(node) ? `OptChain(${node.optional}, ${text})` : text;
  }

  template(node) {
    const parts = [];
    node.quasis.forEach((quasi, index) => {
      parts.push(`\`${quasi.value.raw}\``);
      if (index < node.expressions.length) {
        parts.push(this.expr(node.expressions[index]));
      }
    });
    return `Tpl(${parts.join(', ')})`;
  }

  arrow(node) {
    const name = node.async ? 'AsyncArrow' : 'Arrow';
    const params = this.list(node.params, this.pat);
    const body = node.body.type === 'BlockStatement' ? this.kept(node.body) : this.expr(node.body);
    return `${name}([${params}], ${body})`;
  }

  /** What is left of an operator that writes. */
  target(node) {
    return node.type === 'ArrayPattern' || node.type === 'ObjectPattern' ? this.pat(node) : this.expr(node);
  }

  prop(node) {
    if (node.type === 'SpreadElement') {
      return this.item(node);
    }
    const { kind, method, shorthand, value } = node;
    if (shorthand) {
      return this.expr(value);
    }
    if (kind === 'get') {
      return `Getter(${this.key(node)}, ${this.kept(value.body)})`;
    }
    if (kind === 'set') {
      return `Setter(${this.key(node)}, ${this.list(value.params, this.pat)}, ${this.kept(value.body)})`;
    }
    if (method) {
      const name = `${value.async ? 'Async' : ''}${value.generator ? 'Generator' : ''}Method`;
      return `${name}(${this.key(node)}, [${this.list(value.params, this.pat)}], ${this.kept(value.body)})`;
    }
    return `${this.key(node)}: ${this.expr(value)}`;
  }

  patProp(node) {
    if (node.type === 'RestElement') {
      return this.pat(node);
    }
    if (!node.shorthand) {
      return `${this.key(node)}: ${this.pat(node.value)}`;
    }
    const { type, left, right } = node.value;
    return type === 'AssignmentPattern' ? `${left.name} = ${this.expr(right)}` : this.pat(node.value);
  }

  pat(node) {
    switch (node.type) {
      case 'Identifier':
        return node.name;
      case 'ArrayPattern':
        return `Array[${this.list(node.elements, this.pat)}]`;
      case 'ObjectPattern':
        return `Object{${this.list(node.properties, this.patProp)}}`;
      case 'AssignmentPattern':
        return `Assign(${this.pat(node.left)}, ${this.expr(node.right)})`;
      case 'RestElement':
        return `Rest(${this.pat(node.argument)})`;
      default:
        return `Expr(${this.expr(node)})`;
    }
  }
}

function binary(p, n) {
  return `Bin(${n.operator}, ${p.expr(n.left)}, ${p.expr(n.right)})`;
}

/** How each kind of expression is printed. */
const EXPRESSIONS = {
  Identifier: (p, n) => n.name,
  PrivateIdentifier: (p, n) => `#${n.name}`,
  Literal: (p, n) => n.raw,
  ThisExpression: () => 'this',
  Super: () => 'super',
  MetaProperty: (p, n) => `${n.meta.name}.${n.property.name}`,
  ParenthesizedExpression: (p, n) => `Paren(${p.expr(n.expression)})`,
  ArrayExpression: (p, n) => `Array[${p.list(n.elements, p.item)}]`,
  ObjectExpression: (p, n) => `Object{${p.list(n.properties, p.prop)}}`,
  SequenceExpression: (p, n) => `Seq(${p.list(n.expressions, p.expr)})`,
  FunctionExpression: (p, n) => `Fn${p.kept(n)}`,
  ClassExpression: (p, n) => `Class${p.kept(n)}`,
  TemplateLiteral: (p, n) => p.template(n),
  TaggedTemplateExpression: (p, n) => `Tagged(${p.expr(n.tag)}, ${p.template(n.quasi)})`,
  ArrowFunctionExpression: (p, n) => p.arrow(n),
  UnaryExpression: (p, n) => `Unary(${n.operator}, ${p.expr(n.argument)})`,
  UpdateExpression: (p, n) => `${n.prefix ? 'Prefix' : 'Postfix'}(${n.operator}, ${p.expr(n.argument)})`,
  AwaitExpression: (p, n) => `Await(${p.expr(n.argument)})`,
  YieldExpression: (p, n) => `Yield${n.delegate ? 'Star' : ''}(${n.argument ? p.expr(n.argument) : '-'})`,
  BinaryExpression: binary,
  LogicalExpression: binary,
  AssignmentExpression: (p, n) => `Assign(${n.operator}, ${p.target(n.left)}, ${p.expr(n.right)})`,
  ConditionalExpression: (p, n) => `Cond(${p.expr(n.test)}, ${p.expr(n.consequent)}, ${p.expr(n.alternate)})`,
  NewExpression: (p, n) => `New(${p.expr(n.callee)}, ${isBare(n) ? '-' : p.args(n.arguments)})`,
  ImportExpression: (p, n) => `Call(import, [${p.expr(n.source)}])`,
  ChainExpression: (p, n) => p.expr(n.expression),
  MemberExpression: (p, n) => p.link(n, p.member(n)),
  CallExpression: (p, n) => p.link(n, `Call(${p.expr(n.callee)}, ${p.args(n.arguments)})`),
};

/** How many bytes come before each place of a text that isn't ASCII. */
function bytesOf(text) {
  if (/^[\x00-\x7f]*$/.test(text)) {
    return null;
  }
  const bytes = new Uint32Array(text.length + 1);
  for (let at = 0, before = 0; at < text.length; at += 1) {
    bytes[at] = before;
    const code = text.charCodeAt(at);
    const isHalf = code >= 0xd800 && code < 0xe000;
    before += isHalf ? 2 : Buffer.byteLength(text[at]);
    bytes[at + 1] = before;
  }
  return bytes;
}

/** Lines deeper than this are indented no further, and begin with their depth. */
const DEEPEST = 40;

/** Prints statements: a line for each, and what it holds below it. */
class Outline {
  constructor(text) {
    this.text = text;
    this.lines = [];
    this.waiting = [];
    this.printer = new Printer(text);
    this.bytes = bytesOf(text);
  }

  expr(node) {
    return this.printer.expr(node);
  }

  pat(node) {
    return this.printer.pat(node);
  }

  /** ` ` and an expression, or nothing where there is none. */
  maybe(node) {
    return node ? ` ${this.expr(node)}` : '';
  }

  /** A line. The bodies that were met since the last one wait for a pass of their own. */
  line(depth, text) {
    const indent = '  '.repeat(Math.min(depth, DEEPEST)) + (depth > DEEPEST ? `[${depth}] ` : '');
    const bodies = this.printer.bodies.sort((a, b) => a.start - b.start);
    const places = bodies.map(body => ` ${this.place(body)}`);
    this.lines.push(indent + text + (places.length > 0 ? ` with${places.join(',')}` : ''));
    this.waiting.push(...bodies);
    this.printer.bodies = [];
  }

  /** The place of a body. That of a static block begins at its brace, which acorn has no node for. */
  place(body) {
    const blanks = /(?:\s|\/\/.*|\/\*[^]*?\*\/)*/y;
    let start = body.start;
    if (body.type === 'StaticBlock') {
      blanks.lastIndex = start + 'static'.length;
      start = blanks.lastIndex + blanks.exec(this.text)[0].length;
    }
    return `${this.byte(start)}..${this.byte(body.end)}`;
  }

  /** A place in bytes, of one in the units of JavaScript's strings. */
  byte(at) {
    return this.bytes ? this.bytes[at] : at;
  }

  list(nodes, depth) {
    nodes.forEach(node => this.statement(node, depth));
  }

  statement(node, depth) {
    if (!(node.type in STATEMENTS)) {
      throw new Error(`no statement: ${node.type}`);
    }
    STATEMENTS[node.type](this, node, depth);
  }

  names(node) {
    const names = node.declarations.map(({ id, init }) => ` ${this.pat(id)}${init ? ` = ${this.expr(init)}` : ''}`);
    return `${node.kind}${names.join(',')}`;
  }

  /** What the head of a `for` begins with. */
  head(node, print) {
    return node.type === 'VariableDeclaration' ? this.names(node) : print.call(this, node);
  }

  each(node, depth, word) {
    const wait = node.await ? ' await' : '';
    this.line(depth, `for${wait} ${this.head(node.left, this.pat)} ${word} ${this.expr(node.right)}`);
    this.statement(node.body, depth + 1);
  }

  counted(node, depth) {
    const init = node.init ? ` ${this.head(node.init, this.expr)}` : '';
    this.line(depth, `for${init};${this.maybe(node.test)};${this.maybe(node.update)}`);
    this.statement(node.body, depth + 1);
  }

  choice(node, depth) {
    this.line(depth, `if ${this.expr(node.test)}`);
    this.statement(node.consequent, depth + 1);
    if (node.alternate) {
      this.line(depth, 'else');
      this.statement(node.alternate, depth + 1);
    }
  }

  clauses(node, depth) {
    this.line(depth, `switch ${this.expr(node.discriminant)}`);
    for (const clause of node.cases) {
      this.line(depth + 1, clause.test ? `case ${this.expr(clause.test)}` : 'default');
      this.list(clause.consequent, depth + 2);
    }
  }

  attempt(node, depth) {
    this.line(depth, 'try');
    this.list(node.block.body, depth + 1);
    if (node.handler) {
      const { param, body } = node.handler;
      this.line(depth, `catch${param ? ` ${this.pat(param)}` : ''}`);
      this.list(body.body, depth + 1);
    }
    if (node.finalizer) {
      this.line(depth, 'finally');
      this.list(node.finalizer.body, depth + 1);
    }
  }

  /** A function, a class or a block, which waited. */
  pass(body) {
    const at = `at ${this.place(body)}`;
    if (/^Class/.test(body.type)) {
      const heritage = body.superClass ? ` extends ${this.expr(body.superClass)}` : '';
      this.line(0, `${at} class${body.id ? ` ${body.id.name}` : ''}${heritage}`);
      body.body.body.forEach(member => this.member(member));
    } else if (/^Function/.test(body.type)) {
      const words = `${body.async ? 'async ' : ''}function${body.generator ? ' *' : ''}`;
      this.line(0, `${at} ${words}${body.id ? ` ${body.id.name}` : ''}${this.params(body)}`);
      this.list(body.body.body, 1);
    } else {
      this.line(0, `${at} block`);
      this.list(body.body, 1);
    }
  }

  params(node) {
    return `(${this.printer.list(node.params, this.printer.pat)})`;
  }

  member(node) {
    const { printer } = this;
    if (node.type === 'StaticBlock') {
      printer.kept(node);
      this.line(1, 'member static');
      return;
    }
    const key = node.computed ? `computed ${this.expr(node.key)}` : this.expr(node.key);
    const place = node.static ? ' static' : '';
    if (node.type === 'PropertyDefinition') {
      this.line(1, `member${place} ${key}${node.value ? ` = ${this.expr(node.value)}` : ''}`);
      return;
    }
    const { kind, value } = node;
    const words = `${value.async ? ' async' : ''}${value.generator ? ' *' : ''}`;
    const accessor = /^[gs]et$/.test(kind) ? ` ${kind}` : '';
    const params = this.params(value);
    printer.kept(value.body);
    this.line(1, `member${place}${words}${accessor} ${key}${params}`);
  }
}

/** `break` and `continue`. */
function jump(word) {
  return (o, n, depth) => o.line(depth, word + (n.label ? ` ${n.label.name}` : ''));
}

/** Words and an expression, with a statement below. */
function above(words) {
  return (o, n, depth) => {
    o.line(depth, words(o, n));
    o.statement(n.body, depth + 1);
  };
}

/** A function or a class, which waits for its pass. */
function declared(word) {
  return (o, n, depth) => {
    o.printer.kept(n);
    o.line(depth, word);
  };
}

/** A name that a module imports or exports. */
function exportName(node) {
  return node.type === 'Literal' ? node.raw : node.name;
}

/** What is imported, each with a comma after it. */
const SPECIFIERS = {
  ImportDefaultSpecifier: n => ` default as ${n.local.name},`,
  ImportNamespaceSpecifier: n => ` * as ${n.local.name},`,
  ImportSpecifier: n => (n.imported.end === n.local.end ? ` ${n.local.name},` : ` ${exportName(n.imported)} as ${n.local.name},`),
};

/** `export` with names or a declaration. */
function exportNamed(o, n, depth) {
  if (n.declaration) {
    const { type } = n.declaration;
    if (type === 'VariableDeclaration') {
      o.line(depth, `export ${o.names(n.declaration)}`);
    } else {
      o.printer.kept(n.declaration);
      o.line(depth, `export ${type === 'FunctionDeclaration' ? 'function' : 'class'}`);
    }
    return;
  }
  const names = n.specifiers.map(({ local, exported }) =>
    local.end === exported.end ? ` ${exportName(local)},` : ` ${exportName(local)} as ${exportName(exported)},`);
  o.line(depth, `export${names.join('')}${n.source ? ` from ${n.source.raw}` : ''}`);
}

/** `export default` */
function exportDefault(o, n, depth) {
  const word = { FunctionDeclaration: 'function', ClassDeclaration: 'class' }[n.declaration.type];
  if (word) {
    o.printer.kept(n.declaration);
  }
  o.line(depth, `export default ${word || o.expr(n.declaration)}`);
}

/** How each kind of statement is printed. */
const STATEMENTS = {
  ExpressionStatement: (o, n, depth) => o.line(depth, `expr ${o.expr(n.expression)}`),
  VariableDeclaration: (o, n, depth) => o.line(depth, o.names(n)),
  EmptyStatement: (o, n, depth) => o.line(depth, 'empty'),
  DebuggerStatement: (o, n, depth) => o.line(depth, 'debugger'),
  ReturnStatement: (o, n, depth) => o.line(depth, `return${o.maybe(n.argument)}`),
  ThrowStatement: (o, n, depth) => o.line(depth, `throw ${o.expr(n.argument)}`),
  BreakStatement: jump('break'),
  ContinueStatement: jump('continue'),
  FunctionDeclaration: declared('function'),
  ClassDeclaration: declared('class'),
  WhileStatement: above((o, n) => `while ${o.expr(n.test)}`),
  WithStatement: above((o, n) => `with ${o.expr(n.object)}`),
  LabeledStatement: above((o, n) => `label ${n.label.name}`),
  BlockStatement: (o, n, depth) => {
    o.line(depth, 'block');
    o.list(n.body, depth + 1);
  },
  DoWhileStatement: (o, n, depth) => {
    o.line(depth, 'do');
    o.statement(n.body, depth + 1);
    o.line(depth, `while ${o.expr(n.test)}`);
  },
  IfStatement: (o, n, depth) => o.choice(n, depth),
  SwitchStatement: (o, n, depth) => o.clauses(n, depth),
  TryStatement: (o, n, depth) => o.attempt(n, depth),
  ForStatement: (o, n, depth) => o.counted(n, depth),
  ForInStatement: (o, n, depth) => o.each(n, depth, 'in'),
  ForOfStatement: (o, n, depth) => o.each(n, depth, 'of'),
  ImportDeclaration: (o, n, depth) =>
    o.line(depth, `import${n.specifiers.map(s => SPECIFIERS[s.type](s)).join('')} from ${n.source.raw}`),
  ExportNamedDeclaration: exportNamed,
  ExportDefaultDeclaration: exportDefault,
  ExportAllDeclaration: (o, n, depth) =>
    o.line(depth, `export *${n.exported ? ` as ${exportName(n.exported)}` : ''} from ${n.source.raw}`),
};

/** The tree of a program, as the program `statements` writes it. */
function programTree(text, goal = 'script') {
  const outline = new Outline(text);
  const program = parseProgram(text, goal);
  outline.lines.push('program');
  outline.list(program.body, 1);
  for (let next = 0; next < outline.waiting.length; next += 1) {
    outline.lines.push('');
    outline.pass(outline.waiting[next]);
  }
  return `${outline.lines.join('\n')}\n`;
}

/** Calls the function with each node of a tree. */
function eachNode(tree, see) {
  const due = [tree];
  while (due.length > 0) {
    const node = due.pop();
    if (node !== null && typeof node === 'object') {
      see(node);
      due.push(...Object.values(node));
    }
  }
}

/** The texts of the expressions of a program that are statements, or values of what is declared. */
function expressionsOf(text) {
  const found = [];
  if (isProgram(text, 'script')) {
    eachNode(parseProgram(text, 'script'), ({ type, expression, init }) => {
      const node = { ExpressionStatement: expression, VariableDeclarator: init }[type];
      if (node) {
        found.push(text.slice(node.start, node.end));
      }
    });
  }
  return found;
}

module.exports = { Printer, bytesOf, expressionsOf, programTree };
