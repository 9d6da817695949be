// Compares the names that `ecma scopes` lists with those of an analysis of acorn's tree.
//
//     node tests/scopes_acorn.js                    tests/ecma/scopes.in, and the rows of names.rows
//     node tests/scopes_acorn.js PROGRAM FILE ..    files, on each of which PROGRAM, a built `ecma`, is run
//
// A file is read as the first of a script, a module and a CommonJS module that acorn reads. The status is 1 where
// anything differs. Run it at the top of the repository; node needs its package acorn.
'use strict';

const { readFileSync } = require('fs');
const { goalOf, parseProgram } = require('./acorn.js');
const { rowsOf, runOn, Report } = require('./acorn_rows.js');

const GOALS = { 'client: names': 'script', 'client: module names': 'module', 'client: CommonJS names': 'commonjs' };

/** What binds names: the first declaration of each, by its text. */
class Scope {
  constructor(around, isFunction = false) {
    this.around = around;
    this.known = new Map();
    this.forVar = isFunction ? this : around.forVar;
  }

  declare(name, place) {
    const known = this.known.get(name);
    this.known.set(name, known && known.start <= place.start ? known : place);
  }

  find(name) {
    return this.known.get(name) || (this.around && this.around.find(name));
  }
}

/** Whether a parameter has an expression. */
function hasExpression(part) {
  if (!part || part.type === 'AssignmentPattern' || part.computed) {
    return Boolean(part);
  }
  return [...(part.elements || part.properties || []), part.value, part.argument].some(hasExpression);
}

/** The names of a program. Each node is walked in its scope, with what is done with it: words, or a scope that declares it. */
class Names {
  constructor() {
    this.found = [];
  }

  all(nodes, scope, how) {
    nodes.forEach(node => this.walk(node, scope, how));
  }

  walk(node, scope, how = 'read') {
    if (node && typeof node.type === 'string' && WALKS[node.type]) {
      WALKS[node.type](this, node, scope, how);
    } else if (node && typeof node.type === 'string') {
      this.all(Object.values(node).flat(), scope);
    }
  }

  add(node, scope, how) {
    if (how instanceof Scope) {
      how.declare(node.name, node);
    }
    this.found.push({ node, scope, how: how instanceof Scope ? 'bound' : how });
  }

  function(node, scope, place = node) {
    const around = new Scope(scope);
    if (node.type !== 'ArrowFunctionExpression') {
      around.declare('arguments', place);
    }
    if (node.type === 'FunctionExpression') {
      this.walk(node.id, around, around);
    }
    const params = new Scope(around, true);
    this.all(node.params, params, params);
    const block = node.params.some(hasExpression) ? new Scope(params, true) : params;
    this.all(node.body.type === 'BlockStatement' ? node.body.body : [node.body], block);
  }

  class(node, scope) {
    const within = new Scope(scope);
    this.walk(node.id, within, within);
    this.all([node.superClass, node.body], within);
  }

  keyed(node, scope, how) {
    this.walk(node.computed ? node.key : null, scope);
    if (node.type === 'MethodDefinition' || node.method || /^[gs]et$/.test(node.kind)) {
      this.function(node.value, scope, node);
    } else {
      this.walk(node.value, scope, how);
    }
  }
}

const inScope = (names, n, s) => names.all(Object.values(n).flat(), new Scope(s));
const asFunction = (names, n, s) => names.function(n, s);
const asKeyed = (names, n, s, how) => names.keyed(n, s, how);
const nothing = () => {};

const WALKS = {
  Identifier: (names, n, s, how) => names.add(n, s, how),
  PrivateIdentifier: nothing, MetaProperty: nothing, BreakStatement: nothing, ContinueStatement: nothing,
  ExportAllDeclaration: nothing,
  LabeledStatement: (names, n, s) => names.walk(n.body, s),
  BlockStatement: inScope, ForStatement: inScope,
  ForInStatement: (names, n, s) => {
    const head = new Scope(s);
    names.walk(n.left, head, 'written');
    names.all([n.right, n.body], head);
  },
  SwitchStatement: (names, n, s) => { names.walk(n.discriminant, s); names.all(n.cases, new Scope(s)); },
  StaticBlock: (names, n, s) => names.all(n.body, new Scope(s, true)),
  CatchClause: (names, n, s) => { const own = new Scope(s); names.walk(n.param, own, own); names.walk(n.body, own); },
  IfStatement: (names, n, s) => {
    const part = node => names.walk(node, node && node.type === 'FunctionDeclaration' ? new Scope(s) : s);
    [n.test, n.consequent, n.alternate].forEach(part);
  },
  VariableDeclaration: (names, n, s) => n.declarations.forEach(({ id, init }) => {
    names.walk(id, s, n.kind === 'var' ? s.forVar : s);
    names.walk(init, s);
  }),
  FunctionDeclaration: (names, n, s) => { names.walk(n.id, s, s); names.function(n, s); },
  FunctionExpression: asFunction, ArrowFunctionExpression: asFunction,
  ClassDeclaration: (names, n, s) => { if (n.id) { s.declare(n.id.name, n.id); } names.class(n, s); },
  ClassExpression: (names, n, s) => names.class(n, s),
  Property: asKeyed, PropertyDefinition: asKeyed, MethodDefinition: asKeyed,
  ParenthesizedExpression: (names, n, s, how) => names.walk(n.expression, s, how),
  MemberExpression: (names, n, s) => names.all([n.object, n.computed ? n.property : null], s),
  UpdateExpression: (names, n, s) => names.walk(n.argument, s, 'read and written'),
  AssignmentExpression: (names, n, s) => {
    names.walk(n.left, s, n.operator === '=' ? 'written' : 'read and written');
    names.walk(n.right, s);
  },
  ObjectPattern: (names, n, s, how) => names.all(n.properties, s, how),
  ArrayPattern: (names, n, s, how) => names.all(n.elements, s, how),
  RestElement: (names, n, s, how) => names.walk(n.argument, s, how),
  AssignmentPattern: (names, n, s, how) => { names.walk(n.left, s, how); names.walk(n.right, s); },
  ImportDeclaration: (names, n, s) => n.specifiers.forEach(({ local }) => names.walk(local, s, s)),
  ExportNamedDeclaration: (names, n, s) => {
    names.walk(n.declaration, s);
    names.all(n.source ? [] : n.specifiers.map(({ local }) => local), s);
  },
};
WALKS.ForOfStatement = WALKS.ForInStatement;

/** The names of a text, in its order, each as a line, by what says where a node is. */
function namesOf(text, goal, lineOf) {
  const names = new Names();
  names.all(parseProgram(text, goal).body, new Scope(null, true));
  return names.found.sort((a, b) => a.node.start - b.node.start).map(({ node, scope, how }) => {
    const binding = scope.find(node.name);
    return lineOf(node, how, how === 'bound' ? null : binding || 'free');
  });
}

function bindingText(binding, placeOf) {
  return binding === null ? '' : ` ${binding === 'free' ? binding : `bound ${placeOf(binding)}`}`;
}

/** The names of a text, as the program writes them: with lines, and columns in UTF-16 units. */
function namesText(text, goal) {
  const starts = [0, ...Array.from(text.matchAll(/\r\n|[\r\n\u2028\u2029]/g), end => end.index + end[0].length)];
  let line = 0;
  const placeOf = ({ start }) => {
    line = starts[line] <= start ? line : 0;
    while (starts[line + 1] <= start) {
      line += 1;
    }
    return `${line + 1}:${start - starts[line] + 1}`;
  };
  const lineOf = (node, how, binding) => `${placeOf(node)} ${node.name} ${how}${bindingText(binding, placeOf)}\n`;
  return namesOf(text, goal, lineOf).join('');
}

/** The names of a text, as a row has them. */
function namesAnswer(text, goal) {
  const placeOf = ({ start, end }) => `${start}..${end}`;
  const lineOf = (node, how, binding) => `${node.name} ${placeOf(node)} ${how}${bindingText(binding, placeOf)}`;
  return namesOf(text, goal, lineOf).join('; ') || 'none';
}

function compareRows(report) {
  const text = readFileSync('tests/ecma/scopes.in', 'utf8');
  report.compare('tests/ecma/scopes.in', namesText(text, 'module'), readFileSync('tests/ecma/scopes.out', 'utf8'));
  for (const { calls, text, answers } of rowsOf('names.rows')) {
    report.compare(text, namesAnswer(text, GOALS[calls]), answers[0]);
  }
}

function compareFiles(report, program, files) {
  for (const file of files) {
    const text = readFileSync(file, 'utf8');
    const goal = goalOf(text);
    if (goal) {
      report.compare(`${file} (${goal})`, namesText(text, goal), runOn(program, text, ['scopes', `--${goal}`]));
    } else {
      report.skip();
    }
  }
}

const [program, ...files] = process.argv.slice(2);
const report = new Report();
if (program) {
  compareFiles(report, program, files);
} else {
  compareRows(report);
}
report.end();
