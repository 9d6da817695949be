// Compares the tree of a program that is derived from the written grammar with the ESTree that acorn has of its text.
'use strict';

/** The items of a list of the grammar's trees. */
function listOf(codes) {
  const items = [];
  for (let rest = codes; rest.constructor_ === 'more'; rest = rest.parts[1]) {
    items.push(rest.parts[0]);
  }
  return items;
}

class Difference extends Error {}

/** Says what is another; `tokens` have the places of the text. */
class Comparison {
  constructor(tokens) {
    this.tokens = tokens;
  }

  same(one, other, what) {
    if (one !== other) {
      throw new Difference(`${what}: ${one}, and in acorn's tree ${other}`);
    }
  }

  place({ lo, hi }, node, what) {
    this.same(this.tokens[lo]?.start, node.start, `${what} begins`);
    this.same(this.tokens[hi - 1]?.end, node.end, `${what} ends`);
  }

  /** An expression, a pattern or a key, of which the place alone is compared. */
  part(code, node, what) {
    this.same(code.constructor_, 'part', what);
    this.same(node !== null && node !== undefined, true, `${what} is there`);
    this.place(code.parts[0].parts[1], node, what);
  }

  /** The same, or none. */
  partOrNone(code, node, what) {
    if (this.isNone(code)) {
      return this.same(node ?? null, null, what);
    }
    return this.part(this.unlisted(code), node, what);
  }

  isNone(code) {
    return code.constructor_ === 'code' && code.parts[0].constructor_ === 'none';
  }

  unlisted(code) {
    return code.constructor_ === 'code' && code.parts[0].constructor_ === 'list' ? listOf(code.parts[2])[0] : code;
  }

  name(code, node, what) {
    if (this.isNone(code)) {
      return this.same(node ?? null, null, what);
    }
    const [form, span] = code.parts;
    this.same(form.parts[0], form.constructor_ === 'string' ? node.value : node.name, what);
    return this.place(span, node, what);
  }

  statements(codes, nodes, what) {
    this.same(codes.length, nodes.length, `${what}: how many`);
    codes.forEach((code, index) => this.statement(code, nodes[index]));
  }

  type(node, type) {
    this.same(type, node?.type, 'a node');
  }

  statement(code, node) {
    const [form, span, codes] = code.parts;
    const parts = listOf(codes);
    const name = form.constructor_;
    if (!(name in this.forms)) {
      throw new Difference(`no statement: ${name}`);
    }
    this.forms[name].call(this, node, parts, form, span);
    this.place(span, node, name);
  }

  function_(code, node, isExpression) {
    const [form, span, codes] = code.parts;
    const [name, body, ...params] = listOf(codes);
    this.same(form.parts[0], node.async, 'async');
    this.same(form.parts[1], node.generator, 'generator');
    this.name(name, node.id, 'the name of a function');
    this.same(params.length, node.params.length, 'parameters');
    params.forEach((param, index) => this.part(param, node.params[index], 'a parameter'));
    this.statement(body.parts[0].parts[0], node.body);
    if (!isExpression) {
      this.place(span, node, 'a function');
    }
  }

  class_(code, node) {
    const [, span, codes] = code.parts;
    const [name, heritage, members] = listOf(codes);
    this.name(name, node.id, 'the name of a class');
    this.partOrNone(heritage, node.superClass, 'what a class extends');
    this.place(members.parts[1], node.body, 'the members of a class');
    const list = listOf(members.parts[2]);
    this.same(list.length, node.body.body.length, 'members');
    list.forEach((member, index) => this.member(member, node.body.body[index]));
    this.place(span, node, 'a class');
  }

  member(code, node) {
    const [form, span, codes] = code.parts;
    const [inner] = listOf(codes);
    const [kind, , parts] = inner.parts;
    const [key, value] = listOf(parts);
    if (kind.constructor_ === 'static_block') {
      this.type(node, 'StaticBlock');
      this.statements(listOf(key.parts[0].parts[0].parts[2]), node.body, 'a static block');
      return this.place(span, node, 'a static block');
    }
    this.same(form.parts[0], node.static, 'static');
    this.key(key, node);
    if (kind.constructor_ === 'field') {
      this.type(node, 'PropertyDefinition');
      this.partOrNone(value, node.value, 'the value of a field');
    } else {
      this.type(node, 'MethodDefinition');
      this.same(kind.parts[0].constructor_.toLowerCase(), node.kind, 'the kind of a method');
      this.function_(value, node.value);
    }
    return this.place(span, node, 'a member');
  }

  key(code, node) {
    if (code.parts[0].constructor_ === 'private_name') {
      this.same(code.parts[0].parts[0], node.key.name, 'a private name');
      return this.place(code.parts[1], node.key, 'a private name');
    }
    const { lo, hi } = this.unlisted(code).parts[0].parts[1];
    const inner = node.computed ? { lo: lo + 1, hi: hi - 1 } : { lo, hi };
    return this.place(inner, node.key, 'a key');
  }

  left(code, node) {
    const [inner] = listOf(code.parts[2]);
    return inner.constructor_ === 'part' ? this.part(inner, node, 'what each turn sets') : this.statement(inner, node);
  }

  source(code, node) {
    return this.isNone(code) ? this.same(node.source ?? null, null, 'from') : this.name(listOf(code.parts[2])[0], node.source, 'from');
  }
}

const each = (self, nodes, codes, visit, what) => {
  self.same(codes.length, nodes.length, what);
  codes.forEach((code, index) => visit.call(self, code, nodes[index]));
};

/** What each form of a statement is in ESTree. */
Comparison.prototype.forms = {
  block(node, parts) {
    this.type(node, 'BlockStatement');
    this.statements(parts, node.body, 'a block');
  },
  empty(node) {
    this.type(node, 'EmptyStatement');
  },
  expression(node, [expr]) {
    this.type(node, 'ExpressionStatement');
    this.same(undefined, node.directive, 'a directive');
    this.part(expr, node.expression, 'an expression');
  },
  directive(node, [expr]) {
    this.type(node, 'ExpressionStatement');
    this.same(expr.parts[0].parts[0].parts[0], node.directive, 'a directive');
    this.part(expr, node.expression, 'an expression');
  },
  debugger(node) {
    this.type(node, 'DebuggerStatement');
  },
  if_else(node, [test, consequent, alternate]) {
    this.type(node, 'IfStatement');
    this.part(test, node.test, 'a test');
    this.statement(consequent, node.consequent);
    if (this.isNone(alternate)) {
      this.same(node.alternate, null, 'else');
    } else {
      this.statement(alternate, node.alternate);
    }
  },
  do_while(node, [body, test]) {
    this.type(node, 'DoWhileStatement');
    this.statement(body, node.body);
    this.part(test, node.test, 'a test');
  },
  while(node, [test, body]) {
    this.type(node, 'WhileStatement');
    this.part(test, node.test, 'a test');
    this.statement(body, node.body);
  },
  for_parts(node, [init, test, update, body]) {
    this.type(node, 'ForStatement');
    if (init.constructor_ === 'code' && !this.isNone(init)) {
      this.statement(init, node.init);
    } else {
      this.partOrNone(init, node.init, 'what is before the first semicolon');
    }
    this.partOrNone(test, node.test, 'a test');
    this.partOrNone(update, node.update, 'an update');
    this.statement(body, node.body);
  },
  for_in(node, [left, right, body]) {
    this.type(node, 'ForInStatement');
    this.left(left, node.left);
    this.part(right, node.right, 'what is gone through');
    this.statement(body, node.body);
  },
  for_of(node, [left, right, body], form) {
    this.type(node, 'ForOfStatement');
    this.same(form.parts[0], node.await, 'await');
    this.left(left, node.left);
    this.part(right, node.right, 'what is gone through');
    this.statement(body, node.body);
  },
  continue(node, [label]) {
    this.type(node, 'ContinueStatement');
    this.name(label, node.label, 'a label');
  },
  break(node, [label]) {
    this.type(node, 'BreakStatement');
    this.name(label, node.label, 'a label');
  },
  return(node, [value]) {
    this.type(node, 'ReturnStatement');
    this.partOrNone(value, node.argument, 'what is returned');
  },
  with(node, [object, body]) {
    this.type(node, 'WithStatement');
    this.part(object, node.object, 'an object');
    this.statement(body, node.body);
  },
  switch(node, [discriminant, ...cases]) {
    this.type(node, 'SwitchStatement');
    this.part(discriminant, node.discriminant, 'what is compared');
    each(this, node.cases, cases, this.statement, 'clauses');
  },
  case(node, [test, ...items]) {
    this.type(node, 'SwitchCase');
    this.part(test, node.test, 'a test');
    this.statements(items, node.consequent, 'a clause');
  },
  default(node, items) {
    this.type(node, 'SwitchCase');
    this.same(node.test, null, 'a test');
    this.statements(items, node.consequent, 'a clause');
  },
  labelled(node, [label, body]) {
    this.type(node, 'LabeledStatement');
    this.name(label, node.label, 'a label');
    this.statement(body, node.body);
  },
  throw(node, [value]) {
    this.type(node, 'ThrowStatement');
    this.part(value, node.argument, 'what is thrown');
  },
  try(node, [block, handler, finalizer]) {
    this.type(node, 'TryStatement');
    this.statement(block, node.block);
    this.same(this.isNone(handler), node.handler === null, 'catch');
    this.same(this.isNone(finalizer), node.finalizer === null, 'finally');
    if (node.handler) {
      this.statement(handler, node.handler);
    }
    if (node.finalizer) {
      this.statement(finalizer, node.finalizer);
    }
  },
  catch(node, [param, body]) {
    this.type(node, 'CatchClause');
    this.partOrNone(param, node.param, 'a parameter');
    this.statement(body, node.body);
  },
  variables(node, declarators, form) {
    this.type(node, 'VariableDeclaration');
    this.same(form.parts[0].constructor_.toLowerCase(), node.kind, 'a declaration');
    each(this, node.declarations, declarators, this.statement, 'declarators');
  },
  declarator(node, [pattern, value]) {
    this.type(node, 'VariableDeclarator');
    this.part(pattern, node.id, 'a name or a pattern');
    this.partOrNone(value, node.init, 'a value');
  },
  fun(node, parts, form) {
    this.type(node, 'FunctionDeclaration');
    this.function_(form.parts[0], node);
  },
  class(node, parts, form) {
    this.type(node, 'ClassDeclaration');
    this.class_(form.parts[0], node);
  },
  import(node, [clause, source]) {
    this.type(node, 'ImportDeclaration');
    each(this, node.specifiers, this.isNone(clause) ? [] : listOf(clause.parts[2]), this.statement, 'names');
    this.name(source, node.source, 'from');
  },
  import_default(node, [local]) {
    this.type(node, 'ImportDefaultSpecifier');
    this.name(local, node.local, 'a name');
  },
  import_namespace(node, [local]) {
    this.type(node, 'ImportNamespaceSpecifier');
    this.name(local, node.local, 'a name');
  },
  import_named(node, [imported, local]) {
    this.type(node, 'ImportSpecifier');
    this.name(this.isNone(imported) ? local : imported, node.imported, 'a name');
    this.name(local, node.local, 'a name');
  },
  export_all(node, [exported, source]) {
    this.type(node, 'ExportAllDeclaration');
    this.name(exported, node.exported, 'a name');
    this.source(source, node);
  },
  export_named(node, [names, source]) {
    this.type(node, 'ExportNamedDeclaration');
    each(this, node.specifiers, listOf(names.parts[2]), this.statement, 'names');
    this.source(source, node);
  },
  export_name(node, [local, exported]) {
    this.type(node, 'ExportSpecifier');
    this.name(local, node.local, 'a name');
    this.name(this.isNone(exported) ? local : exported, node.exported, 'a name');
  },
  export_declaration(node, [declaration]) {
    this.type(node, 'ExportNamedDeclaration');
    this.statement(declaration, node.declaration);
  },
  export_default(node, [exported]) {
    this.type(node, 'ExportDefaultDeclaration');
    if (exported.constructor_ === 'part') {
      this.part(exported, node.declaration, 'what is exported');
    } else {
      this.statement(exported, node.declaration);
    }
  },
};

/** What differs between the items of a program and acorn's tree; nothing, if nothing does. */
function differs(items, program, tokens) {
  try {
    new Comparison(tokens).statements(listOf(items.parts[2]), program.body, 'a program');
    return undefined;
  } catch (error) {
    if (error instanceof Difference) {
      return error.message;
    }
    throw error;
  }
}

module.exports = { differs, listOf };
