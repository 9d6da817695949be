// Whether the rows of the lexer are as V8 reads their texts: node --experimental-vm-modules tests/lexer_rows.js FILE..
//
// Nothing here comes from the lexer that is tested. A text is cut into tokens by the regular expressions below, each way
// in which its slashes may be read is tried, and V8 says which one it reads: it takes the text with each regular
// expression of that way replaced by one that can be nothing else, and each other slash by `%`. V8 also says what
// strings and templates mean. Where V8 refuses a text with a slash in it, it can't say, and the row is counted as left.
'use strict';
const fs = require('fs');
const vm = require('vm');

const KEYWORDS = new Set(('await break case catch class const continue debugger default delete do else export extends ' +
  'finally for function if import in instanceof let new return super switch this throw try typeof var void while with ' +
  'yield').split(' '));
const WORDS = new Set(['null', 'true', 'false']);
const SIGNS = ('>>>= ... === !== >>> <<= >>= **= &&= ||= ??= => == != <= >= << >> && || ?? ++ -- += -= *= /= %= &= |= ' +
  '^= ** { } ( ) [ ] . ; , < > + - * / % & | ^ ! ~ ? : = @ #').split(' ');
const BINARY = new Set('== != === !== < <= > >= << >> >>> + - * / % | ^ & || && ** ??'.split(' '));
const ASSIGN = new Set('= += -= *= /= %= <<= >>= >>>= |= ^= &= **= &&= ||= ??='.split(' '));

const BLANKS = /(?:[\t\v\f\ufeff\p{Zs}\n\r\u2028\u2029]|\/\/[^\n\r\u2028\u2029]*|\/\*[^]*?\*\/)*/uy;
const BREAK = /[\n\r\u2028\u2029]/;
const ESCAPED = String.raw`\\u[0-9a-fA-F]{4}|\\u\{[0-9a-fA-F]+\}`;
const NAME = new RegExp(
  `(?:[$_\\p{ID_Start}]|${ESCAPED})(?:[$\\u200c\\u200d\\p{ID_Continue}]|${ESCAPED})*`, 'uy');
const DIGITS = '[0-9](?:_?[0-9])*';
const OCTAL = '0[0-7]+(?![0-9])';
const OLD = '0[0-9]+';
const WHOLE = '(?:0(?![0-9])|[1-9](?:_?[0-9])*)';
const NUMBER = new RegExp('0[bB][01](?:_?[01])*n?|0[oO][0-7](?:_?[0-7])*n?|0[xX][0-9a-fA-F](?:_?[0-9a-fA-F])*n?|' +
  `${WHOLE}n|${OCTAL}|(?:(?:${WHOLE}|${OLD})(?:\\.(?:${DIGITS})?)?|\\.${DIGITS})(?:[eE][+-]?${DIGITS})?`, 'y');
// A number up to where it lacks a digit.
const LACKING = new RegExp(`0[bB](?![01])|0[oO](?![0-7])|0[xX](?![0-9a-fA-F])|` +
  `(?:(?:${WHOLE}|(?!${OCTAL})${OLD})(?:\\.(?:${DIGITS})?)?|\\.${DIGITS})[eE](?:[+-](?![0-9])|(?![-+0-9]))`, 'y');
const STRING = /"(?:[^"\\\n\r]|\\(?:\r\n|[^]))*"|'(?:[^'\\\n\r]|\\(?:\r\n|[^]))*'/y;
const CLASS = String.raw`\[(?:[^\]\\\n\r\u2028\u2029]|\\[^\n\r\u2028\u2029])*\]`;
const REGEXP = new RegExp(String.raw`\/(?![*\/])(?:[^\/\\\[\n\r\u2028\u2029]|\\[^\n\r\u2028\u2029]|${CLASS})+\/` +
  String.raw`[$\u200c\u200d\p{ID_Continue}]*`, 'uy');
const GOOD_ESCAPE = new RegExp(String.raw`^\\(?:x[0-9a-fA-F]{2}|u[0-9a-fA-F]{4}|` +
  String.raw`u\{0*(?:10[0-9a-fA-F]{4}|[0-9a-fA-F]{1,5})\}|0(?![0-9])|\r\n|[^0-9xu])`, 'u');

const at = (pattern, text, start) => {
  pattern.lastIndex = start;
  const found = pattern.exec(text);
  return found ? found[0] : null;
};

function takes(isModule, text) {
  try {
    return Boolean(isModule ? new vm.SourceTextModule(text) : new vm.Script(text));
  } catch {
    return false;
  }
}

// What a name means that is written with escapes, or null.
function meant(name) {
  const value = name.replace(/\\u(?:\{([0-9a-fA-F]+)\}|([0-9a-fA-F]{4}))/g, (_, braced, four) => {
    const code = parseInt(braced ?? four, 16);
    return code > 0x10ffff || (code >= 0xd800 && code < 0xe000) ? '\\' : String.fromCodePoint(code);
  });
  return /^[$_\p{ID_Start}][$\u200c\u200d\p{ID_Continue}]*$/u.test(value) ? value : null;
}

// Where the first bad escape of a template's text is.
function badEscape(text) {
  for (let i = 0; i < text.length; i++) {
    if (text[i] === '\\') {
      const good = GOOD_ESCAPE.exec(text.slice(i));
      if (!good) {
        return i;
      }
      i += good[0].length - 1;
    }
  }
  return -1;
}

// The token that begins at the place and has no slash, or null where none does.
function tokenAt(text, start, last) {
  const c = text[start];
  const name = at(NAME, text, start);
  if (name !== null) {
    const value = meant(name);
    const isReserved = KEYWORDS.has(value) || WORDS.has(value);
    if (value === null || (name.includes('\\') && isReserved && last?.sign !== '.' && last?.sign !== '#')) {
      return null;
    }
    const kind = KEYWORDS.has(value) ? 'keyword' : WORDS.has(value) ? 'word' : 'name';
    return { kind, values: [value], end: start + name.length };
  }
  if (/[0-9]/.test(c) || (c === '.' && /[0-9]/.test(text[start + 1] ?? ''))) {
    const number = at(NUMBER, text, start);
    if (number === null || /^[0-9$_\\\p{ID_Start}]/u.test(text.slice(start + number.length))) {
      return null;
    }
    const isBig = number.endsWith('n');
    return { kind: isBig ? 'big' : 'number', values: [number], end: start + number.length };
  }
  if (c === '"' || c === "'") {
    const raw = at(STRING, text, start);
    try {
      return raw && { kind: 'string', values: [vm.runInNewContext(`(${raw})`)], end: start + raw.length };
    } catch {
      return null;
    }
  }
  if (c === '#' && at(NAME, text, start + 1) === null) {
    return null;
  }
  const sign = c === '`' ? c : SIGNS.find(one => text.startsWith(one, start));
  if (sign === undefined) {
    return null;
  }
  return { kind: BINARY.has(sign) ? 'binary' : ASSIGN.has(sign) ? 'assign' : 'sign', sign, end: start + sign.length };
}

// The text of a template that begins at the place, or null where nothing ends it.
function templateText(text, start) {
  let end = start;
  while (end < text.length && text[end] !== '`' && !text.startsWith('${', end)) {
    end += text[end] === '\\' ? (text.startsWith('\r\n', end + 1) ? 3 : 2) : 1;
  }
  if (end >= text.length) {
    return null;
  }
  const written = text.slice(start, end);
  const [raw, cooked] = vm.runInNewContext('(s => [s.raw[0], s[0]])`' + written + '`');
  const bad = cooked === undefined ? start + badEscape(written) : -1;
  return { kind: 'template', values: cooked === undefined ? [raw] : [raw, cooked], bad, end };
}

// All ways to read the text: its tokens, and where a fault is.
function readings(text) {
  const found = [];
  const read = (start, before, open) => {
    let tokens = before;
    let from = start;
    const put = (token, place, breaks) => {
      tokens = [...tokens, { ...token, start: place, breaks }];
      from = token.end;
    };
    for (;;) {
      if (open.at(-1) === '`') {
        const body = templateText(text, from);
        if (body === null) {
          found.push({ tokens, fault: from - 1, isText: true });
          return;
        }
        put(body, from, false);
        const sign = text[from] === '`' ? '`' : '${';
        open = sign === '`' ? open.slice(0, -1) : [...open, '${'];
        put({ kind: 'sign', sign, end: from + sign.length }, from, false);
        continue;
      }
      const blanks = at(BLANKS, text, from) ?? '';
      const place = from + blanks.length;
      const breaks = BREAK.test(blanks);
      if (place >= text.length) {
        found.push({ tokens });
        return;
      }
      const regexp = at(REGEXP, text, place);
      if (regexp !== null) {
        const cut = regexp.lastIndexOf('/');
        const values = [regexp.slice(1, cut), regexp.slice(cut + 1)];
        read(place + regexp.length,
          [...tokens, { kind: 'regexp', values, start: place, end: place + regexp.length, breaks }], open);
      }
      const last = tokens.at(-1);
      const token = text.startsWith('/*', place) ? null : tokenAt(text, place, last);
      if (token === null || (token.sign === '.' && last?.sign === '?' && place > from)) {
        found.push({ tokens, fault: place });
        return;
      }
      put(token, place, breaks);
      if (token.sign === '`' || token.sign === '{') {
        open = [...open, token.sign];
      } else if (token.sign === '}') {
        open = open.slice(0, -1);
      }
    }
  };
  const bang = /^#![^\n\r\u2028\u2029]*/.exec(text);
  read(bang ? bang[0].length : 0, [], []);
  return found;
}

const isSlash = token => token.sign === '/' || token.sign === '/=';

// The text with each regular expression as one that is nothing else, and `%` for each other slash.
function guarded(text, tokens) {
  let out = '';
  let from = 0;
  for (const token of tokens) {
    if (token.kind === 'regexp') {
      out += text.slice(from, token.start) + '/\\//';
      from = token.end;
    } else if (isSlash(token)) {
      out += text.slice(from, token.start) + '%';
      from = token.start + 1;
    }
  }
  return out + text.slice(from);
}

const length = text => Buffer.byteLength(text);
const shown = value => {
  const byte = b => (b >= 32 && b <= 126 ? String.fromCharCode(b) : `<${b}>`);
  return `[${[...Buffer.from(value.toWellFormed())].map(byte).join('')}]`;
};

const place = (text, start, end) => `${length(text.slice(0, start))}..${length(text.slice(0, end))}`;

// Of an escape that is no good one: a backslash and a character, and the digits and the brace after `\\u{`, `\\u` or `\\x`.
const BAD_ESCAPE = /\\(?:u\{[0-9a-fA-F]*\}?|[ux][0-9a-fA-F]*|[^]?)/uy;

// What is wrong where no token begins, and where: from what isn't closed on, from the number on, or the escape, the word or the character.
function faultAt(text, start) {
  const said = (kind, from, end) => `${kind} ${place(text, from, end)}`;
  const c = text[start];
  const name = at(NAME, text, start);
  if (text.startsWith('/*', start)) {
    return said('UnterminatedBlockComment', start, text.length);
  }
  if (name !== null && meant(name) !== null) {
    return said('EscapeInReservedWord', start, start + name.length);
  }
  if (c === '\\') {
    const whole = /\\u(?:[0-9a-fA-F]{4}|\{0*(?:10[0-9a-fA-F]{4}|[0-9a-fA-F]{1,5})\})/uy;
    return said('BadCharacterEscapeSequence', start, start + (at(whole, text, start) ?? at(BAD_ESCAPE, text, start)).length);
  }
  if (c === '"' || c === "'") {
    let end = start + 1;
    while (end < text.length && text[end] !== '\n' && text[end] !== '\r') {
      if (text[end] !== '\\') {
        end++;
        continue;
      }
      const good = /^\\(?:x[0-9a-fA-F]{2}|u[0-9a-fA-F]{4}|u\{0*(?:10[0-9a-fA-F]{4}|[0-9a-fA-F]{1,5})\}|\r\n|[^xu])/u.exec(text.slice(end));
      if (good === null && end + 1 < text.length) {
        return said('BadCharacterEscapeSequence', end, end + at(BAD_ESCAPE, text, end).length);
      }
      end += good === null ? 1 : good[0].length;
    }
    return said('UnterminatedStrLit', start, end);
  }
  if (/[0-9]/.test(c) || (c === '.' && /[0-9]/.test(text[start + 1] ?? ''))) {
    const lacking = at(LACKING, text, start);
    if (lacking !== null) {
      return said('ExpectedDigit', start, start + lacking.length);
    }
    const end = start + at(NUMBER, text, start).length;
    if (text[end] === '_') {
      return said('ExpectedDigit', start, end + 1);
    }
    return said('IdentAfterNum', start, end + at(/(?:[$\u200c\u200d\p{ID_Continue}]|\\u[0-9a-fA-F]{4}|\\u\{[0-9a-fA-F]+\})*/uy, text, end).length);
  }
  return said('UnexpectedChar', start, start + (c === undefined ? 0 : String.fromCodePoint(text.codePointAt(start)).length));
}

function show(text, token) {
  const lo = length(text.slice(0, token.start));
  const parts = [(token.breaks ? '^' : '') + token.kind, ...(token.sign ? [token.sign] : token.values.map(shown))];
  if (token.bad >= 0) {
    parts.push(`(BadCharacterEscapeSequence ${place(text, token.bad, token.bad + at(BAD_ESCAPE, text, token.bad).length)})`);
  }
  return [...parts, `${lo}..${lo + length(text.slice(token.start, token.end))}`].join(' ');
}

// The faults that the tokens have in strict code: numbers that begin with 0 and a digit, and the first escape by digits of each string.
function strictFaults(text, tokens) {
  const found = [];
  for (const token of tokens) {
    const raw = text.slice(token.start, token.end);
    if (token.kind === 'number' && /^0[0-9]/.test(raw)) {
      found.push(`${/^[0-7]+$/.test(raw) ? 'LegacyOctal' : 'LegacyDecimal'} ${place(text, token.start, token.end)}`);
    }
    const escape = token.kind === 'string' && /^(?:[^\\]|\\(?![0-9])[^]|\\0(?![0-9]))*(\\(?!0(?![0-9]))(?:[0-3][0-7]{0,2}|[4-7][0-7]?|[89]))/.exec(raw);
    if (escape) {
      const start = token.start + escape[0].length - escape[1].length;
      found.push(`${/[89]/.test(escape[1]) ? 'LegacyDecimal' : 'LegacyOctal'} ${place(text, start, token.start + escape[0].length)}`);
    }
  }
  return found.join(', ') || 'none';
}

// The comments between the tokens, and after the last.
function comments(text, tokens) {
  const found = [];
  const bang = /^#![^\n\r\u2028\u2029]*/.exec(text);
  if (bang) {
    found.push(`hashbang ${place(text, 0, bang[0].length)}`);
  }
  let from = bang ? bang[0].length : 0;
  for (const token of [...tokens, { start: text.length, end: text.length }]) {
    for (const one of text.slice(from, token.start).matchAll(/\/\/[^\n\r\u2028\u2029]*|\/\*[^]*?\*\//gu)) {
      const start = from + one.index;
      found.push(`${one[0][1] === '/' ? 'line' : 'block'} ${place(text, start, start + one[0].length)}`);
    }
    from = token.end;
  }
  return found.join(', ') || 'none';
}

// The line of the end of the text, its column in bytes, characters and units of UTF-16, and all such units.
function endOf(text) {
  const all = text.split(/\r\n|[\n\r\u2028\u2029]/);
  const last = all.at(-1);
  return `${all.length}:${length(last)} ${[...last].length} ${last.length} of ${text.length}`;
}

function answer(text, reading, wanted) {
  if (reading.fault !== undefined) {
    return `refused: ${reading.isText ? `UnterminatedTpl ${place(text, reading.fault, text.length)}` : faultAt(text, reading.fault)}`;
  }
  if (wanted === 'strict') {
    return strictFaults(text, reading.tokens);
  }
  if (wanted === 'comments') {
    return comments(text, reading.tokens);
  }
  const tokens = reading.tokens.filter(token => wanted !== 'regexps' || token.kind === 'regexp');
  return tokens.map(token => show(text, token)).join(', ') || 'none';
}

// What V8 makes of the text, or null where it can't say.
function judged(text, isModule, wanted) {
  if (wanted === 'lines') {
    return endOf(text);
  }
  let all = readings(text);
  const hasSlash = all.length > 1 || all[0].tokens.some(isSlash) || text[all[0].fault] === '/';
  if (hasSlash) {
    if (!takes(isModule, text)) {
      return null;
    }
    all = all.filter(one => one.fault === undefined && takes(isModule, guarded(text, one.tokens)));
  }
  const answers = new Set(all.map(one => answer(text, one, wanted)));
  return answers.size === 1 ? [...answers][0] : `${answers.size} answers`;
}

function decoded(text) {
  const bytes = [];
  for (let i = 0; i < text.length; i++) {
    if (text[i] !== '\\') {
      bytes.push(text.charCodeAt(i));
    } else if (text[i + 1] === 'n' || text[i + 1] === 'r') {
      bytes.push(text[++i] === 'n' ? 10 : 13);
    } else {
      bytes.push(parseInt(text.slice(i + 1, i + 3), 16));
      i += 2;
    }
  }
  return Buffer.from(bytes).toString();
}

const counts = { same: 0, differ: 0, left: 0 };
for (const file of process.argv.slice(2)) {
  let heading = null;
  for (const line of fs.readFileSync(file, 'utf8').split('\n')) {
    heading = /^lexed: (tokens|regexps|strict|comments|lines) \| (script|module):$/.exec(line) ?? heading;
    const row = /^ {4}(.*?) \| (.*)$/.exec(line);
    if (heading === null || row === null) {
      continue;
    }
    const wanted = judged(decoded(row[1]), heading[2] === 'module', heading[1]);
    counts[wanted === null ? 'left' : wanted === row[2] ? 'same' : 'differ']++;
    if (wanted !== null && wanted !== row[2]) {
      console.log(`${file}: ${row[1]}\n    V8:   ${wanted}\n    here: ${row[2]}`);
    }
  }
}
console.log(JSON.stringify(counts));
process.exitCode = counts.differ > 0 ? 1 : 0;
