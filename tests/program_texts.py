"""Ten texts of expressions as real programs have them, of any size, written by rules: tests/peers.py measures them."""
import re
from collections import namedtuple

# Rules of a kind of program. `open`, then as many of `item` as the size takes, with `between` between them, then `close` make the text.
# `name = .. | ..` has what `name` may stand for, and `name: ..` words. `@other` in it stands for a text of that rule, and `@other~` does where
# a letter follows; `@nl` is a new line, and `@none` nothing. Where more than `depth` rules are within one another, the first choice is taken.
# Statements are in bodies alone, of which the tokens are taken.
Program = namedtuple('Program', 'name mode depth rules')

BASE = r'''
d: 0 1 2 3 4 5 6 7 8 9
int = @d | 1@d | 2@d@d | 4@d@d@d
num = @int | @int | @int~.@d@d | .@d@d | 0x@d~f@d~a | 0b101 | 1@d~e-@d | @int~n
word: index total width height value result node item count offset buffer state list map key entry config options target parent child label
Word: Count Index Value Width Name Size Item List Node State Event Handler Data Type Text Time Id
id = @word | @word | @word@Word | _@word | $@word@Word | @word@d
Class: Map Point Vector Matrix Queue Store Model View Router Parser Buffer
str = '@word' | '@word @word, @word' | "@word-@word" | "it's @int @word\n" | '\\@word\'s "@word"'
lit = @num | @str | true | false | null
args = @op | @e | @op, @op | @id, @e, @lit | ...@id | @none
path = @id | @id | @id.@word | @id.@word@Word | this.@id | @path.@word@Word | @path[@op] | @path.@word(@args)
target = @id | @path.@id | @path[@op]
prim = @id | @id | @lit | @path | @path | @path | @path(@args) | (@e) | [@args] | {@word: @e, @id}
un = @prim | @prim | @prim | @prim | @prim | !@prim | -@prim | typeof @prim | void 0
bop: + + + - - * / % < > <= >= == != === === !== & | ^ << >>
op = @un | @un | @un | @un | @un @bop @un | @un @bop @un | @un @bop @op | @un @bop @op | @prim ** @prim | '@word' in @prim
    | @prim instanceof @Class
aop: += -= *= /= %= **= <<= >>= >>>= &= |= ^= ||= &&= ??=
e = @op | @op | @op | @op && @op | @op || @op | @op && (@target = @e) | @op ? @e : @e | @target = @e | @target @aop @op
stmt = return @op; | var @id = @e, @id; | if (@op) { @target = @e; } else { @target++; } | for (const each of @path) { @target = each; }
    | for (let i = 0; i < @path.length; ++i) { @path.@word(i); } | { const { first, second: [last] = @lit } = @path; }
    | @path.forEach(each => each.@word()); | try { @path(@args); } catch (error) { throw new Error(`@word ${@op}`); }
body = { @stmt } | { @stmt } | { @stmt @stmt } | {@nl~    @stmt@nl~    @stmt@nl}
fn = function () @body | function (@word) @body | function @id(@word, $1, ...rest) @body | function () { "use strict"; @stmt @stmt }
    | function ({ first, second = @d }, [last] = []) @body
note = @none | @none | @none | /* @word, then @word */ @none | // the @word of the @word@nl
open = [@nl
between = ,@nl
close = @nl]
'''

PROGRAMS = (
    Program('numbers: formulas, bits, matrices', 'script', 8, r'''
math: sqrt abs floor min max sin atan2 hypot imul fround
prim = @id | @num | @num | @id[@op] | @id[@op][@op] | Math.@math(@op, @op) | Math.PI | (@op) | (@e) | @path
bop: + + + - - * * * / / % < > <= >= & | ^ << >> >>>
un = @prim | @prim | @prim | -@prim | ~@prim | +@prim | ~~@prim | @target++
row = [@num, @num, -@num] | [@op, @op, @op] | [@num, , @num]
open = measure(@nl
close = @nl)
item = @note@target = @op | @note@target @aop @op | @note@target = @op | @target = [@row, @row, @row]
    | @target = new Float64Array([...@id, @num, @op]) | @target = @op < @num ? @op : (@op) ** 2 | @target = (@op) >>> 0
'''),
    Program('pages: elements, handlers, long chains', 'script', 10, r'''
event: click input keydown submit scroll mouseover change
tag: div span ul li button form input
sel = '#@word' | '.@word-@word > @tag' | "@tag[data-@word='@int']"
el = document.getElementById('@word') | document.querySelector(@sel) | $(@sel) | $(this).find(@sel) | event.target.closest(@sel)
    | @el.parentNode
prim = @id | @str | @el | @path | @el.children[@int] | @el.@word | @fn | window.@id(@args)
open = $(document)
between = @none
close = @none
item = @nl~    .on('@event', @sel, @fn) | @nl~    .@word(@sel, { @word: @e, '@word-@word': @op + 'px' })
    | @nl~    .attr('data-@word', @op).addClass(@str) | @nl~    .append(@el.clone(true), document.createTextNode(@op))
    | @nl~    .css({ width: @op + 'px', "@word-@word": void 0, display: @op ? 'none' : '' }) | @nl~    .each(function (at, each) @body)
    | @nl~    .find(@sel).removeClass(@str).end() | @nl~    .then(@el.style.@word = @op, delete @path[@op], @el && @el.focus())
    | @nl~    /* @word */ .data('@word', @e)[@op].@word
'''),
    Program('settings: nested literals', 'strict', 10, r'''
re: /\.[jt]sx?$/ /node_modules/ /^@\w+\//i
value = @lit | @lit | @str | { @prop, @prop } | { @prop, @prop,@nl@prop, @prop } | [@value, @value, @value,] | [@value, , ...@path] | @fn
    | @re | process.env.@id || @str | require('@word')(@value) | new @Class({ @prop })
prop = @id: @value | @id: @value | '@word-@word': @value | @int: @value | [@op]: @value | ...@path | @id | @id() @body | get @id() @body
    | async @id() @body | *@id() @body | async *[@op]() @body
open = {@nl
close = ,@nl}
item = @note@prop | @id: { @prop, @prop, @prop, @prop } | '@word/@word': [{ @prop, @prop }, { @prop }]
    | @word: { '@word': { @prop, @prop }, @prop }
'''),
    Program('templates: markup, styles, messages', 'module', 10, r'''
tag: div span section li a
tpl = `@word` | `@word ${@op} of ${@path}` | `<@tag class="${@path} @word">${@tpl}</@tag>`
    | `<@tag id='@word' @word=${@e}>@nl~    @word: ${@op ? @tpl : ''}@nl</@tag>` | `${@e}${@op}` | `\`@word\` costs \${@int}@nl~${@path}`
    | html`<@tag>${@tpl}</@tag>` | css`.@word { @word: ${@op}px; @word: ${@path} }` | String.raw`\@word\@word ${@path}` | @path`@word`
prim = @id | @str | @tpl | @tpl | @path | @path.join(@str) | @str + @prim | String(@op) | @tpl.trim()
item = @note@tpl | @tpl + @str + @op | @target = @tpl | @target += @tpl | [@str, @tpl, @e].join("\n") | import.meta.url + @tpl
    | import(`./@word/${@path}.js`) | @op ? @tpl : @tpl | console.log(@tpl, @op)
'''),
    Program('patterns: regular expressions', 'strict', 10, r'''
class: [a-z] [^/\\] [\]\-_] [/] \d \s \w . \. \/ \u0041 \x2f
atom = @class | @class+ | @class*? | @class{@d,4@d} | (?:@atom|@word) | (@atom@atom) | (?=@atom) | (?!@word)@atom
flags: g i gi m s u y gm dgimsuy
re = /@atom@atom/ | /^@atom@atom$/@flags | /\b(?<@word>@atom)@atom/@flags | /@word@atom@atom@atom/@flags | /@atom|@atom/@flags
prim = @id | @re | @str | @path | @re.test(@path) | @re.exec(@op) | @path.match(@re) | @path.replace(@re, @str) | @path.split(@re)[@int]
    | (@e)
item = { @word: @re, @id: '@word', next: [@re, @re] } | { @word: @re, @id: @fn, ...@path }
    | @note@target = @path.replace(@re, @str).replace(@re, @fn) | @re.test(@op) ? @e : @re.exec(@id)
    | @target = @path.lastIndex / @num / @num | [...@path.matchAll(@re)] | new RegExp(@re.source + @str, @str)
    | !@re.test(@id) && (@target = @op)
'''),
    Program('requests: `await`, `?.`, `??`', 'async', 9, r'''
verb: get post find load save send list
link = ?.@word | ?.[@op] | ?.(@args) | ?.@verb(@args) | .@word | ?.@word.@word[@int] | @link@link
prim = @id | @lit | @path | @path@link | @path@link | (await @call) | (await @call)@link | [await @call, await @prim]
    | { @word: await @prim, @id } | (@e)
call = api.@verb(@str) | api.@verb(@args)
    | fetch(`/@word/${@op}`, { method: '@verb', headers: { '@word-@word': @op }, body: JSON.stringify(@prim) })
    | Promise.all([@call, @call, ...@path]) | import('./@word.js') | @path@link | (async function () @body)()
un = @prim | @prim | await @call | await @prim | !await @call | typeof await @prim
e = @op | @op | @op ?? @op | @op ?? @op ?? @lit | @op || @op && @op | @op ? @e : @e | @target = await @call | @target ??= @e
stmt = return @e; | @target = await @call; | if (@op) { @target ??= @e; } | for await (const each of @path) { @target = each; }
    | try { await @call; } catch { throw new Error(`@word ${@op}`); } | @path.forEach(each => each?.@word());
open = await Promise.all([@nl
close = @nl])
item = @note@target = await @call | @path@link ?? @op | (await @call)@link ?? @op | @target ??= @e | await @call | delete @path@link
    | @path?.@verb(await @call, @args)@link | async function @id({ first }) @body
'''),
    Program('generators: `yield`', 'generator', 10, r'''
effect: put call select fork take race all
prim = @id | @lit | @path | @effect(@args) | (yield @e) | (yield) | [yield @op, yield] | { @word: yield @op, [yield]: @op, *@id() @body }
    | `${yield @op}` | (yield @path).@word | @path | @path(@args) | new.target
e = @op | @op | yield @e | yield* @path(@args) | @target = yield @effect(@args) | @target = yield* @path | @op ? yield @op : @e
    | @op && (yield @op)
open = start(),@nl
close = @nl
item = yield @effect(@args) | @note~yield @effect(@str, @e) | @target = yield @effect(@args) | @target += yield | yield* @path(@args)
    | yield { type: '@word/@word', payload: @e } | yield [@effect(@args), @effect(@e)] | @path(yield @op, ...yield* @path)
    | @op ? yield @e : @target = yield | @target = function* () @body | yield new @Class(@args)
'''),
    Program('games: updates of state', 'strict', 10, r'''
unit: player enemy ball wall score shot level tile
units: players enemies balls walls shots tiles
field: x y vx vy hp angle speed time
path = @unit.@field | @unit | @unit.@field | @units[@op].@field | grid[@op][@op] | this.@unit.@field
target = @unit.@field | @units[@id].@field | grid[@id][@op] | @id
un = @prim | @prim | @path | -@path | !@path | @target++ | --@target
prim = @unit | @path | @path | @num | Math.random() | keys[@str] | (@e)
item = @target += @op | @note@target @aop @op | ++@target | @target-- | @target = @op > @op ? @e : @e | @target = @op ? @op : @op ? @op : @e
    | @target = @target = @op | keys.@word && (@target -= @op, @target = -@path)
    | state = { ...state, @unit: { ...state.@unit, @field: @op }, @word: @e }
    | @units.push(new @Class(@args)), @units.length > @int && @units.shift() | context.fillRect(@op, @op, @num, @num) | @target ||= @op
    | delete @unit.@field | void setTimeout(@fn, @int)
open = frame = 0,@nl
close = @nl
'''),
    Program('modules: functions and classes as values', 'module', 9, r'''
name: Account Session Widget Logger Reader Writer Cache Shape
member = @id = @e; | static @id = @e; | get @id() @body | set @id(next) { this.@word = next; } | async *@id({ first } = {}) @body
    | static { @target = @e; } | '@word-@word'(a, b = @d) @body | @id = () => @op; | @id(@word, ...rest) @body
class = class { @member } | class @name { @member @member } | class extends (@op, Base) { @member }
    | class @name extends @name {@nl~    #own = @e;@nl~    constructor(@word, ...rest) { super(@word); this.#own = rest; }@nl~    @member@nl}
    | class @name {@nl~    static #count = @d;@nl~    @member@nl~    @member@nl~    get #size() { return this.constructor.#count; }@nl}
prim = @id | @fn | @class | @lit | @path | new @name(@args) | new @name | new (@class)(@args) | new @path.@name(@args) | require('@word')
    | import.meta
open = {@nl
close = @nl}
item = @name: @class | @name: @class | @id: @fn | @id: async function @id() @body | @id: function* () @body | [@op]: (@fn)(@args)
    | @id: Object.assign(@name.prototype, { @id() @body, get @word() @body, async *@id() @body })
    | @id: @prim instanceof @name ? new @name(@args) : @op | default: load(import('@word')) | @id: (@class).@word | ...@path
'''),
    Program('minified: commas, no blanks', 'script', 11, r'''
id: e t n r i o a s u c l f p h d y v b _ $ Ot en
path = @id | @id.@id | @id.@id | @path[@op] | @path.@id(@args) | this.@id
bop: + * / % < > <= >= == != === !== & | ^ << >>> &
prim = @id | @path | @path(@args) | @num | "@word" | (@e) | [@args] | {@id:@e,@id} | {@id:@e,"@word":@op} | `${@op}@word`
un = @prim | @prim | !@prim | !0 | !1 | void 0 | typeof @prim
op = @un | @un | @un@bop@un | @un@bop@op | "@word"in @prim | void 0!==@prim | "function"==typeof @path
args = @op | @e,@op | @none | @id,@e,...@id
e = @op | @op | @op&&@op | @op||(@target=@e) | @op?@e:@e | @op?.5:@e | @target=@e | (@target=@e,@target++,@e) | @op?(@e,@e):@e
    | /@word[/]/g.test(@op)
body = {return @e} | {var @id=@e;return @e,@op} | {for(;@id--;)@target=@op;@target=@e}
fn = function(@id,t){@target=@op;return t} | function(){return @e} | function @id(e,t,n)@body
open = !@fn(@args),
between = ,
close = @nl
item = @target=@e | @target=@op?@e:@e | @op&&(@target=@e) | @target=@path||(@target={@id:{}}) | !@fn(@args) | @target=@fn | @path(@args)
    | @target+=@op | @path&&@path(@args),@target++ | new @id(@args) | delete @path[@op] | @op?@target=@e:@path(@args)
'''),
)


class Writer:
    """Writes what rules stand for. Its choices look random, and are the same on each run."""

    def __init__(self, program):
        self.rules = {'none': [''], 'nl': ['\n'], **rules_of(BASE), **rules_of(program.rules)}
        self.depth = program.depth
        self.state = len(program.name)

    def choose(self, choices):
        self.state = (self.state * 6364136223846793005 + 1442695040888963407) % 2**64
        return choices[(self.state >> 33) % len(choices)]

    def write(self, name, depth):
        choices = self.rules[name]
        chosen = self.choose(choices if depth > 0 or '@' not in choices[0] else choices[:1])
        return re.sub(r'@(\w+)~?', lambda found: self.write(found[1], depth - 1), chosen)


def rules_of(text):
    rules = {}
    for line in re.sub(r'\n    \|', ' |', text).strip().splitlines():
        name, mark, rest = re.match(r'(\w+)(:| =) (.*)', line).groups()
        rules[name] = rest.split() if mark == ':' else rest.split(' | ')
    return rules


def text_of(program, size):
    """A text of some bytes more than `size`. It begins as a shorter text of the program does."""
    writer = Writer(program)
    parts = [writer.write('open', 0)]
    length = 0
    while length < size:
        item = writer.write('item', writer.depth)
        parts += [writer.write('between', 0) if length else '', item]
        length += len(item) + len(parts[-2])
    return ''.join([*parts, writer.write('close', 0)]).encode()
