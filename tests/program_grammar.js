// The written grammar of programs, read from its own files: what the productions of crates/program_grammar/specs/Grammar.antt are, and the functions in which
// they are said. So what is tested against other parsers is the grammar that is proved of, and no copy of it.
'use strict';
const fs = require('fs');
const path = require('path');

const SPECS = path.join(__dirname, '../crates/program_grammar/specs');
const NAME = /^[\p{L}_][\p{L}\p{N}_'-]*(\.[\p{L}\p{N}_'-]+)*/u;
const SIGNS = ['||', '&&', '∷', '++', '(', ')', '{', '}', ',', ';', ':', '=', 'λ', '←', '→', '≡', '.', '*'];

/** Constructors that Grammar.antt knows by other names, since forms and parts have the same ones. */
const ALIASES = { class_form: 'class', function_form: 'function', block_form: 'block', static_form: 'static_block' };

/** The words and signs of a line. */
function wordsOf(text) {
  const words = [];
  let rest = text;
  while ((rest = rest.trimStart())) {
    const found = /^"(\\.|[^"])*"/.exec(rest) ?? NAME.exec(rest) ?? /^\d+/.exec(rest);
    const word = found?.[0] ?? SIGNS.find(sign => rest.startsWith(sign));
    if (!word) {
      throw new Error(`what is this? ${rest}`);
    }
    words.push(word);
    rest = rest.slice(word.length);
  }
  return words;
}

/** The lines of a file without comments, each with those that are indented more. */
function* entries(text) {
  let entry;
  for (const line of text.split('\n').map(line => line.replace(/(^|\s)--.*$/, '').replace(/[«»]/g, ''))) {
    const indent = line.search(/\S/);
    if (indent < 0) {
      continue;
    }
    const goesOn = line.trim() === '}' || (indent > entry?.indent && !/^(module|mutual|abbrev mutual|pub data|data)\b/.test(entry.lines[0]));
    if (entry && goesOn) {
      entry.lines.push(line.trim());
      continue;
    }
    if (entry) {
      yield entry;
    }
    entry = { indent, lines: [line.trim()] };
  }
  yield entry;
}

/** A reader of terms: functions of what the names in them mean. */
class Terms {
  constructor(words, constructors) {
    this.words = words;
    this.at = 0;
    this.constructors = constructors;
  }

  get next() {
    return this.words[this.at];
  }

  eat(word) {
    const is = this.next === word;
    this.at += is ? 1 : 0;
    return is;
  }

  want(word) {
    if (!this.eat(word)) {
      throw new Error(`${word} is wanted, not ${this.next}: ${this.words.join(' ')}`);
    }
  }

  term() {
    if (this.eat('λ')) {
      const patterns = [];
      while (!this.eat('.')) {
        const word = this.words[this.at];
        if (word.endsWith('.')) {
          throw new Error('a binder');
        }
        patterns.push(this.pattern());
      }
      const body = this.term();
      return names => patterns.reduceRight((inner, pattern) => (within => value => inner(bound(pattern, value, within))), body)(names);
    }
    if (this.eat('if')) {
      const [test, , yes, , no] = [this.term(), this.want('then'), this.term(), this.want('else'), this.term()];
      return names => (test(names) ? yes(names) : no(names));
    }
    return this.either();
  }

  either() {
    const left = this.both();
    if (this.eat('||')) {
      const right = this.term();
      return names => left(names) || right(names);
    }
    return left;
  }

  both() {
    const left = this.cons();
    if (this.eat('&&')) {
      const right = this.next === 'λ' ? this.term() : this.both();
      return names => left(names) && right(names);
    }
    return left;
  }

  cons() {
    const left = this.applied();
    if (this.eat('∷')) {
      const right = this.cons();
      return names => made('∷', left(names), right(names));
    }
    return left;
  }

  applied() {
    const parts = [];
    while (this.next && !/^(\)|,|\}|;|\|\||&&|∷|then|else|=)$/.test(this.next)) {
      parts.push(this.next === 'λ' ? this.term() : this.atom());
    }
    return names => parts.slice(1).reduce((f, part) => apply(f, part(names)), parts[0](names));
  }

  atom() {
    const word = this.words[this.at++];
    if (word === '(') {
      const parts = [this.term()];
      while (this.eat(',')) {
        parts.push(this.term());
      }
      this.want(')');
      return parts.length === 1 ? parts[0] : names => parts.map(part => part(names));
    }
    if (word === 'record') {
      return this.record();
    }
    if (word.startsWith('"')) {
      return () => JSON.parse(word);
    }
    if (/^\d+$/.test(word)) {
      return () => Number(word);
    }
    return names => lookUp(word, names, this.constructors);
  }

  /** `record { .. }`, and `record x { .. }`, which is as x is, but for these fields. */
  record() {
    const before = this.next === '{' ? () => ({}) : this.atom();
    this.want('{');
    const fields = [];
    while (!this.eat('}')) {
      const name = this.words[this.at++];
      this.want('=');
      fields.push([name, this.term()]);
      this.eat(';');
    }
    return names => ({ ...before(names), ...Object.fromEntries(fields.map(([name, term]) => [name, term(names)])) });
  }

  /** A pattern: a name, a constructor, or one of these with parts. */
  pattern() {
    const word = this.words[this.at++];
    if (word === '(') {
      const parts = [this.pattern()];
      if (this.next === ',') {
        while (this.eat(',')) {
          parts.push(this.pattern());
        }
        this.want(')');
        return { tuple: parts };
      }
      while (this.next !== ')') {
        parts.push(this.pattern());
      }
      this.want(')');
      return parts.length === 1 ? parts[0] : { ...parts[0], parts: parts.slice(1) };
    }
    const last = ALIASES[word] ?? word.split('.').pop();
    if (word === 'true' || word === 'false') {
      return { value: word === 'true' };
    }
    return word.includes('.') || word in ALIASES || this.constructors.has(word) ? { constructor_: last, parts: [] } : { name: word };
  }
}

/** A value of a constructor; more parts may be applied to it. */
function made(constructor_, ...parts) {
  return { constructor_, parts };
}

function apply(f, value) {
  return typeof f === 'function' ? f(value) : made(f.constructor_, ...f.parts, value);
}

function lookUp(word, names, constructors) {
  const [head, ...fields] = word.split('.');
  if (head in names) {
    return fields.reduce((value, field) => value[field], names[head]);
  }
  if (fields.length || word in ALIASES || constructors.has(word)) {
    return made(ALIASES[word] ?? word.split('.').pop());
  }
  throw new Error(`no name: ${word}`);
}

/** Whether a value is as the pattern says: then the names are added. */
function matches(pattern, value, names) {
  if (pattern.name !== undefined) {
    names[pattern.name] = value;
    return true;
  }
  if (pattern.value !== undefined) {
    return pattern.value === value;
  }
  if (pattern.tuple) {
    return pattern.tuple.every((part, index) => matches(part, value[index], names));
  }
  return (
    value?.constructor_ === pattern.constructor_ &&
    pattern.parts.every((part, index) => matches(part, value.parts[index], names))
  );
}

function bound(pattern, value, names) {
  const within = Object.create(names);
  if (!matches(pattern, value, within)) {
    throw new Error('a binder that does not match');
  }
  return within;
}

/** A function that is said by clauses. */
function byClauses(name, clauses, globals) {
  const arity = clauses[0].patterns.length;
  const run = values => {
    for (const clause of clauses) {
      const names = Object.create(globals);
      if (clause.patterns.every((pattern, index) => matches(pattern, values[index], names))) {
        return clause.body(names);
      }
    }
    throw new Error(`no clause of ${name}`);
  };
  const more = values => (values.length === arity ? run(values) : value => more([...values, value]));
  return more([]);
}

/** Reads the definitions of a file into the globals, and adds its constructors. */
function define(file, globals, constructors) {
  const text = fs.readFileSync(path.join(SPECS, file), 'utf8');
  for (const [, name] of text.matchAll(/^ +([\w]+) : (?!Type)[^\n]*$/gm)) {
    if (/^ {2}\w/.test(`  ${name}`) && new RegExp(`^ +${name} : .*\\b(Form F C K|Code F C K|Codes F C K|VariableKind|MethodKind|Modifier|Symbol|Part)$`, 'm').test(text)) {
      if (!new RegExp(`abbrev( pub)? ${name} :`).test(text)) {
        constructors.add(name);
      }
    }
  }
  const clauses = new Map();
  for (const { lines } of entries(text)) {
    const line = lines.join(' ');
    if (/^(use|abbrev|pub|data|module|pattern|mutual|where|unfoldable|infixl) /.test(line) || !line.includes(' = ') || /^[\w-]+ : /.test(line)) {
      continue;
    }
    const terms = new Terms(wordsOf(line), constructors);
    const name = terms.words[terms.at++];
    const patterns = [];
    while (!terms.eat('=')) {
      patterns.push(terms.pattern());
    }
    clauses.set(name, [...(clauses.get(name) ?? []), { patterns, body: terms.term() }]);
  }
  for (const [name, of] of clauses) {
    if (!(name in globals)) {
      globals[name] = of[0].patterns.length ? byClauses(name, of, globals) : null;
      if (globals[name] === null) {
        Object.defineProperty(globals, name, { get: () => of[0].body(globals), configurable: true });
      }
    }
  }
}

/** A step of a right-hand side. */
function stepOf(text, constructors) {
  const words = wordsOf(text);
  const arrow = words.indexOf('←');
  const terms = new Terms(words, constructors);
  const pattern = arrow < 0 ? undefined : terms.pattern();
  if (arrow >= 0) {
    terms.want('←');
  }
  const kind = terms.words[terms.at++];
  const parts = [];
  while (terms.at < words.length) {
    parts.push(kind === 'gives' ? terms.term() : terms.atom());
  }
  return { pattern, kind, parts, text };
}

/** The productions, by what their symbols are. */
function readProductions(constructors) {
  const text = fs.readFileSync(path.join(SPECS, 'Grammar.antt'), 'utf8').split(/pub data Production.*\n/)[1];
  const productions = [];
  for (const { lines } of entries(text)) {
    const head = /^([\w-]+) : (?:\{[^}]*\} *)*→ Production (.*)$/.exec(lines[0]);
    if (!head) {
      continue;
    }
    const terms = new Terms(wordsOf(head[2].replace(/ c \(do$/, '').replace(/ c \(.*$/, '')), constructors);
    const symbol = terms.pattern();
    const rest = head[2].replace(/^.*? c \((?=do$|symbol|gives)/, '');
    const steps = rest === 'do' ? lines.slice(1) : [rest];
    const joined = [];
    for (const line of steps) {
      if (/^(\(?[\w, ]+'*\)?\)? ← |[\w]+'* ← |symbol|other|token|one|ahead|ahead_two|must|gives|\([\w']+, [\w']+\) ←)/u.test(line)) {
        joined.push(line);
      } else {
        joined[joined.length - 1] += ` ${line}`;
      }
    }
    joined[joined.length - 1] = joined[joined.length - 1].replace(/\)$/, '');
    productions.push({ name: head[1], symbol, steps: joined.map(step => stepOf(step, constructors)) });
  }
  return productions;
}

/** The grammar: its productions, and what the names in them mean; `given` has those that are said elsewhere. */
function readGrammar(given) {
  const constructors = new Set(['None', 'Some', 'for_target', 'for_expr', 'node', 'str', 'ident', 'name_kind']);
  const globals = { not: value => !value, true: true, false: false, codes: text => text, ...given };
  for (const file of ['../../swc_context/specs/Contexts.antt', 'Symbols.antt', 'Tree.antt', 'Tokens.antt', 'Grammar.antt']) {
    define(file, globals, constructors);
  }
  // The name by which Grammar.antt knows it, and a form of trees has the other one.
  globals.static_context = globals.static_block;
  delete globals.static_block;
  return { productions: readProductions(constructors), globals };
}

module.exports = { readGrammar, made, matches, apply };
