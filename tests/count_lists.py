#!/usr/bin/env python3
"""Counts the expressions, patterns and parameters among all lists of a few tokens, apart from the parser and from the productions.

    tests/count_lists.py

Reads the rows of crates/lists/data, `SYMBOL LONGEST | MODE | TOKENS | COUNTS CHECKSUM`, and counts anew how many lists of no token, of one, of two
and so on are what the symbol says. tests/derive.py makes these counts of productions, this script by the rules below: a mistake in one of the two
shows as a difference. Prints each row whose counts differ, with the right ones. Status 0 if none does.

A list is walked from left to right. What matters of its front: the open parentheses, brackets and conditionals, whether an operand comes next, and
which operators are in these (`??` may not be beside `||` or `&&`) and before the operand (none may be left of `**`). Between brackets an item begins
after the bracket and after each comma: there may be dots, a comma (which makes a hole), or the end. Between braces so does a property: dots, `*`, a
name, another key, or the end. After a name that isn't reserved the property may end, or have `=`; after each key there may be `:`, or a method's
parameters in parentheses and its block; after `get`, `set` and `async` another key, and after `async` a `*` too. After these a method has to come,
which has no parameter after `get`, and after `set` one, with a comma or none. In parentheses that are no arguments, in brackets after an operand, in
templates and outside of all these a comma is between two expressions.

A pattern is a name that may be bound, or brackets or braces with others in them. Between brackets an element begins after the bracket and after each
comma: there may be dots, a comma (which makes a hole), or the end. An element is a pattern and, after a `=`, an assignment expression or none. After
dots there is a pattern and then the end. Between braces a property begins after the brace and after each comma: dots and a name that may be bound, and
then the end; a name that isn't reserved; any word, `=` and an assignment expression; or a key, `:` and an element. Parameters are elements with commas
between them, after the last one dots and a pattern, or a comma or not, and then `)`. Names that strict code bars are barred in modules alone, since no
fault of theirs is recorded elsewhere.

After an operand there may be links: a `.` and any word, or one after `#`; a bracket and expressions; a parenthesis and arguments, which are items as
between brackets, but no hole; a template. In a module `delete` and a name alone is no operand, and one with a link or an update after the name is.
After `new` there is an operand that no prefix operator begins, or, in a function, `. target`, which is one together with it. The first arguments after
an operand are those of the last `new` before it that has none. Where each has some, `?` and `.` may be before a name, a bracket or arguments, and no
template after these. Where no `new` before it has none, `super` is before arguments, and so are `import` and `import . source`, whose arguments end
with no comma; in a module `import . meta` is an operand. What begins, goes on with and ends a template are tokens of their own; between them there are
expressions.

An operand may be written to if it is a name (in strict code not `eval`), ends with the link to a name or a bracket and has no `? .`, or is such an
operand alone in parentheses; and if each `new` before it has arguments. `++` and `--` are before such an operand, or after it on its line, and then no
link follows. `=` and `+=` are after one with which an assignment expression begins. A `?` that no `.` follows opens a conditional, which its `:`
closes; in it there is one assignment expression, and after it another.

In a generator an assignment expression may be `yield`, `yield` and another on its line, or `yield *` and another. In async code `await` is a prefix
operator. Elsewhere it is a name where a line break, a comma, what closes something or the end follows; that may be written to, and no link or update
is after it. It is none in a module, and none where a `*` follows, on whichever line. Where something else follows it is a prefix operator, but not in
a generator. After `new` it is a name like `a`, in scripts and generators that aren't strict. A token that is written with `\\r` has a line break
before it.

Before `=>`, where an assignment expression begins, there may be a name that is an operand, but for `let`; `async` and a name that may be bound and
isn't reserved, on its line; or a list in parentheses, with `async` before it on its line or not, of patterns that are bound: their names are those of
operands, `await` is one where nothing but a comma or what closes something is after it, and in modules none is `eval` or `arguments`. No line break is
before `=>`, but after `async` and a name. After it there is a block, or an assignment expression; there `yield` and `await` are those of code in no
generator, and in async code after `async`. Otherwise what begins with `async` and a parenthesis on its line is a call. Among its arguments, and in
parentheses, no object is by itself that has a property with a name and `=`. After a block that is a body the assignment expression ends.

Where an assignment expression begins, brackets or braces may be before `=`. In them there are operands that may be written to, and brackets and braces
of the same kind, with `=` and an assignment expression after them or not; after dots one without, and then the end. So what a list may be is known
later, and it is walked as all that it may be at once. The head of a `for` begins with an expression, after which there is `;`, `)` or nothing, or with
what may be before `=`, and then `of` or `in`; after `async`, with which an assignment expression begins, `of` on its line is that in a `for await`
alone.

In a pedantic mode `#` and a name are an operand only before `in`, where that is an operator, and after no prefix operator, no `new`, and no operator
that binds as `in` does or tighter. `import` has one argument and no comma after it, or with attributes one or two and a comma or none; no dots. No line
break is before `=>` at all. No property with a name and `=` is in braces that are an operand.

A block, a function and a class are taken whole. What matters is how many brackets are open: within its own brace, braces alone are counted; before that
brace all brackets are, where any that closes may close any that opens. There are no rows with templates and braces, of which either may end the other,
nor such with `/`, which begins a regular expression where no operand is before it.
"""
import sys
from collections import Counter, namedtuple
from pathlib import Path

sys.dont_write_bytecode = True
from derive import features_of

DATA = Path(__file__).parent.parent / "crates/lists/data"
PREFIX = set("+ - ! ~ void typeof delete".split())
BINARY = set("?? || && | ^ & == != === !== < > <= >= instanceof in << >> >>> + - * / % **".split())
UPDATE = ("++", "--")
# The binary operators that bind less tightly than `in`.
LOOSER = set("?? || && | ^ & == != === !==".split())
# Names that no mode reserves, those that some modes bar as operands, those that some reserve, and where a property is before its value.
NAMES = {"a", "of", "get", "set", "target", "meta", "source", "eval"}
BARRED = {
    "let": {"module"},
    "yield": {"strict", "generator"},
    "implements": {"strict"},
    "arguments": {"class_field"},
    "static": {"module"},
}
RESERVED = {**BARRED, "let": {"strict"}, "await": {"module", "async", "static_block"}, "arguments": set(), "static": set()}
# The names that some modes bar as names that are bound.
UNBOUND = {
    **dict.fromkeys(("let", "static", "implements", "eval"), {"module"}),
    "arguments": {"module", "class_field"},
    "yield": {"module", "generator"},
    "await": {"module", "async", "static_block"},
    "async": set(),
}
PROPERTY = {"{", "name", "key", "get", "set", "async", "*", "method", "getter", "setter", "params", "shell", "one", "done"}
# Where a pattern is: what may begin, and what is complete. `whole` is all of a list that is a pattern or parameters.
PATTERN = {"pattern", "element", "rest", "rest name", "elements", "properties", "param", "params+"}
PATTERN |= {"bound", "shut", "short", "word", "pkey", "whole", "named"}
# Where only `=>` may follow, and in which code the body of the arrow function is then.
BEFORE_ARROW = {"arrow": "plain", "async arrow": "async", "async list": "async"}
# What closes a list in which no object with a name and `=` is by itself.
BARE = (")", ")@")
HEADS = {"ForHead", "ForAwaitHead"}
# A template, and what begins one.
TEMPLATE = ("``", "`${")
# What `before` is after a comma, by what closes the list; nothing closes the whole.
AFTER_COMMA = {"": "", ")": "", "].": "", "`": "", "]": ",", "}": "{", ").": "args", ")!": "last"}
AFTER_COMMA |= {")shell": "params+", ")one": "shut", ")whole": "params+", ")@": "args"}
AFTER_COMMA |= {")arrow": "params+", ")async list": "params+"}
for after in ("bound", "shut", "whole", "assigned"):
    AFTER_COMMA |= {"]" + after: "elements", "}" + after: "properties"}

# What closes the arguments of `import` where they are counted, after a comma: one more or none, and none.
COUNTED = {")2": ")3", ")3": ")4"}

# outer: of each open parenthesis, bracket, template or conditional, what closes it, and outside it the family, whether the operand has a prefix
# operator, `news`, `lead` and `must`; after what closes it there is where a property is then, or a `.` if it is a link, or a `!` if it is a
# call of `import`. family: `??`, `||` (which is that of `&&` too) or none. before: the token before; `args` where an argument may begin, `last`
# where one has to; where an operand is complete, `delete` if it is one with a link or an update alone, `yield` and `await` if an operand of these
# may come, `update` if no link may. wants: `assign` where an assignment expression begins, `operand` where only an operand does, or nothing.
# prefixed: that operand, or the last one, has a prefix operator. whole: of what is taken whole, whether its own brace is open, how many brackets
# are open beside that, and whether it is a method's block, or none. news: before that operand, or the last one, how many `new` have no
# arguments; -1 if it is an optional chain. lead: that operand is all there is of an assignment expression (`first`), and of what is in its
# bracket (`only`), or nothing. must: that operand has `++` or `--` before it. target: the operand that is complete may be written to, if each
# `new` has arguments. what: which patterns are read, those that are bound, those of arrow functions (`cover`), or those that are written to
# (`place`). place: the operand is one that is written to, in a rest (`rest`) or not (`one`), or may be any. covered: of an object, whether a
# property has a name and `=`. area: whether the operand is in the body of an arrow function (`plain`), or of an async one, or in none.
# level: the same of the bracket. free: the operand that is wanted is after an operator that binds less tightly than `in`.
FIELDS = "outer family before wants prefixed whole news lead must target what place covered area level free"
Front = namedtuple("Front", FIELDS, defaults=(None, 0, "only", False, False, "", "", False, "", "", False))


def begun(front, before):
    """The front with a token more after which another assignment expression begins."""
    front = front._replace(family="", before=before, wants="assign", prefixed=False, whole=None)
    return front._replace(news=0, lead="first", must=False, target=False, place="")


def opened(front, close, before, news, what=""):
    """The front with an opening parenthesis or bracket more, or what begins a template."""
    kept = (front.what, front.place, front.covered, front.area, front.level)
    inner = (close, front.family, front.prefixed, news, front.lead, front.must) + kept
    return Front(front.outer + (inner,), "", before, "assign", False, what=what, area=front.area, level=front.area)


def closed(front):
    """The front with what closes the last parenthesis, bracket, brace or template more."""
    close, family, prefixed, news, lead, must, what, place, covered, area, level = front.outer[-1]
    outer = front.outer[:-1]
    after = Front(outer, "", "", "operand", False, what=what, place=place, covered=covered, area=area, level=level)
    if close == ":":
        return begun(after, "")
    if close[1:] not in ("", ".", "!", "@", "1", "2", "3", "4"):
        return after._replace(before=close[1:], lead=lead)
    target = close == "]." or (close == ")" and front.lead == "only" and writable(front))
    is_covered = close == "}" and front.covered and lead and outer and outer[-1][0] in BARE
    before = "covered" if is_covered else ""
    return after._replace(family=family, before=before, wants="", prefixed=prefixed, news=news, lead=lead, must=must, target=target)


def done(front, target=False):
    """The front with a token more with which an operand is complete."""
    return front._replace(before="", wants="", target=target)


def writable(front):
    """Whether the operand that is complete may be written to."""
    return front.target and front.news == 0 and not front.must


def fitting(front):
    """Whether the operand that is complete is one that `++` or `--` before it may write to, if these are there."""
    return front.before != "delete" and (not front.must or writable(front._replace(must=False)))


def item(front, token):
    """The front with a bracket, a comma or dots more, where an item between brackets begins."""
    return closed(front) if token == "]" else front._replace(before=token)


def within(front, token):
    """The front with a token more of what is taken whole, or None."""
    inside, depth, is_block = front.whole
    if not inside and depth == 0 and token == "{":
        return front._replace(whole=(True, 0, is_block))
    if token == "{" or (not inside and token in ("(", "[")):
        return front._replace(whole=(inside, depth + 1, is_block))
    if token == "}" or (not inside and token in (")", "]")):
        if depth > 0:
            return front._replace(whole=(inside, depth - 1, is_block))
        if not inside:
            return None
        if is_block == "body":
            return front._replace(whole=None, before="arrowed", wants="", target=False)
        return front._replace(whole=None, before="done") if is_block else done(front._replace(whole=None))
    return front


def key(front, token, close):
    """The front with a token more where a key begins, after which there is what `close` names, or None."""
    if token == "[":
        return opened(front, "]" + close, "", 0)
    return front._replace(before=close) if token == "1" or token.isalpha() else None


def bound(front, token, after, mode):
    """The front with a token more with which a pattern begins, after which there is what `after` names, or None."""
    if token in ("[", "{"):
        close, before = {"[": ("]", "elements"), "{": ("}", "properties")}[token]
        return opened(front, close + after, before, 0, front.what)
    if front.what == "place":
        return None
    if front.what == "cover":
        if token == "await" and not mode & {"module", "async"}:
            return front._replace(before="named" if after == "bound" else after)
        is_name = may_refer(token, mode) and not (token in ("eval", "arguments") and "module" in mode)
        return front._replace(before=after) if is_name else None
    names = token in NAMES or token in UNBOUND
    return front._replace(before=after) if names and not mode & UNBOUND.get(token, set()) else None


def may_refer(token, mode):
    """Whether the token is a name that is an operand."""
    return token in NAMES or token == "async" or (token in BARRED and not mode & BARRED[token])


def pattern(front, token, mode):
    """The front with a token more where a pattern is read, or None."""
    before = front.before
    if before in ("pattern", "element", "param", "rest"):
        return bound(front, token, {"pattern": "whole", "rest": "shut"}.get(before, "bound"), mode)
    if before == "rest name":
        return bound(front, token, "shut", mode) if token not in ("[", "{") else None
    if before in ("short", "word", "pkey", "bound") and token in (":", "="):
        if token == ":":
            return front._replace(before="element") if before != "bound" else None
        return begun(front, "") if before != "pkey" else None
    close = front.outer[-1][0] if front.outer else ""
    if before in ("short", "bound", "named", "shut", "elements", "properties", "params+") and close and token == close[0]:
        return closed(front)
    if before in ("short", "bound", "named") and token == ",":
        return front._replace(before=AFTER_COMMA[close]) if close else None
    if before == "elements" and token == ",":
        return front
    if before in ("elements", "params+"):
        return front._replace(before="rest") if token == "..." else bound(front, token, "bound", mode)
    if before != "properties":
        return None
    if token == "...":
        return front._replace(before="rest name")
    if not token.isalpha():
        return key(front, token, "pkey")
    is_open = token in (*NAMES, *RESERVED, "async") and not mode & RESERVED.get(token, set())
    return front._replace(before="short" if is_open else "pkey" if front.what else "word")


def named(front, token, mode):
    """The front with a word more as which a property begins."""
    if token in ("get", "set", "async"):
        return front._replace(before=token)
    is_open = token in (*NAMES, *RESERVED) and not mode & RESERVED.get(token, set())
    return front._replace(before="name" if is_open else "key")


def shell(front, token):
    """The front with a token more of the parentheses of a method without parameters, a parenthesis of one with some, or its block's brace,
    or None."""
    if token == "(" and front.before in ("method", "setter"):
        return opened(front, *{"method": (")shell", "params+"), "setter": (")one", "param")}[front.before], 0)
    after = {("getter", "("): "params", ("params", ")"): "shell"}.get((front.before, token))
    if after:
        return front._replace(before=after)
    return front._replace(whole=(True, 0, True)) if front.before in ("shell", "one") and token == "{" else None


def prop(front, token, mode):
    """The front with a token more where a property begins, or in it before its value, or None."""
    before = front.before
    if before in ("method", "getter", "setter", "params", "shell", "one"):
        return shell(front, token)
    if token in (",", "}") and before in ("name", "get", "set", "async", "done"):
        return closed(front) if token == "}" else front._replace(before="{")
    if before == "done":
        return None
    if before == "{":
        if token in ("}", "..."):
            return closed(front) if token == "}" else begun(front, token)
        if token == "*":
            return front._replace(before="*")
        return named(front, token, mode) if token.isalpha() else key(front, token, "key")
    if before == "*":
        return key(front, token, "method")
    if token == "(":
        return shell(front._replace(before="method"), token)
    if token == ":" or (token == "=" and before != "key" and "pedantic" not in mode):
        return begun(front._replace(covered=front.covered or token == "="), token)
    if before == "async" and token == "*":
        return front._replace(before="*")
    return key(front, token, {"get": "getter", "set": "setter"}.get(before, "method")) if before in ("get", "set", "async") else None


def link(front, token):
    """The front with a token more that begins a link, or None."""
    if token == ".":
        return front._replace(before=".", wants="operand")
    if token in TEMPLATE:
        return template(front, token) if front.news >= 0 else None
    if token == "(":
        return opened(front, ").", "args", front.news - (front.news > 0))
    return opened(front, "].", "", front.news)


def template(front, token):
    """The front with a template more, or what begins one."""
    return opened(front, "`", "", front.news) if token == "`${" else done(front)


def constructed(front, token, mode):
    """The front with a token more after `new`, where that may not be what an operand is elsewhere, or None."""
    if front.before == "new .":
        return done(front._replace(news=front.news - 1)) if token == "target" else None
    if token == "await":
        return done(front, True) if not mode & {"strict", "async", "static_block"} else None
    return front._replace(before="new .") if token == "." and "target" in mode else None


def called(front, token, mode):
    """The front with a token more after `super` or `import`, or None."""
    if front.before == "import ." and token == "meta" and "module" in mode:
        return done(front)
    if (front.before, token) in (("import", "."), ("import .", "source")):
        return front._replace(before=front.before + " " + token)
    if token != "(" or front.before == "import ." or front.news > 0:
        return None
    if front.before != "super" and "pedantic" in mode:
        return opened(front, ")2" if "attributes" in mode else ")1", "", front.news)
    return opened(front, ")." if front.before == "super" else ")!", "args", front.news)


def asked(front, token, mode):
    """The front with a token more after a `?`, which begins a link or is in a conditional, or None."""
    if token == ".":
        return front._replace(before="?.", news=-1) if front.news <= 0 else None
    front = front._replace(before=front.before[:-1])
    return operand(conditional(front), token, mode) if fitting(front) and not front.place else None


def conditional(front):
    """The front with the `?` of a conditional more."""
    return begun(opened(front, ":", "", 0), "")


def prefix(front, token, mode):
    """The front with a prefix operator more, or a word that may be one, or None. The operators after `++` and `--` make no target."""
    front = front._replace(free=False)
    if token in UPDATE:
        return None if front.must else front._replace(before=token, wants="operand", lead="", must=True)
    if token == "await" and "async" not in mode:
        return front._replace(before=token, wants="", target=True)
    return None if front.must else front._replace(before=token, wants="operand", lead="", prefixed=True)


def operand(front, token, mode):
    """The front with a token more where an operand is wanted, or None."""
    if front.whole:
        return within(front, token)
    if front.before in PROPERTY:
        return prop(front, token, mode)
    if front.before in PATTERN:
        return pattern(front, token, mode)
    if front.before == "assigned":
        return begun(front, "") if token == "=" else written(front, token, mode)
    if front.before in BEFORE_ARROW:
        return begun(front._replace(area=BEFORE_ARROW[front.before]), "body") if token == "=>" else None
    if front.before == "body":
        if token == "{":
            return front._replace(whole=(True, 0, "body"))
        front = front._replace(before="")
    if front.before in ("?", "delete?"):
        return asked(front, token, mode)
    if front.before == "?." and token in ("(", "["):
        return link(front, token)
    if front.before == "# in":
        return done(front)._replace(before="in") if token.isalpha() else None
    if front.before == "#" or (front.before in (".", "?.") and token != "#"):
        return done(front, front.target) if token.isalpha() else None
    if front.before == "new ." or (front.before == "new" and (token in (".", "await", *UPDATE) or token in PREFIX)):
        return constructed(front, token, mode)
    if front.before == "super" or front.before.startswith("import"):
        return called(front, token, mode)
    if front.before == "counted":
        if token == ")":
            return closed(front)
        if front.outer[-1][0] == ")4":
            return None
        front = front._replace(before="")
    if front.before == "last" and token == "...":
        return front._replace(before=token)
    if front.before == "args" and token in (")", "..."):
        return closed(front) if token == ")" else front._replace(before=token)
    if front.before in ("[", ",") and token in ("]", ",", "..."):
        return item(front, token)
    if token == "yield" and front.wants == "assign" and "generator" in mode:
        return front._replace(before=token, wants="") if not front.place else None
    if token in PREFIX or token in UPDATE or token == "await":
        return prefix(front, token, mode)
    if token == "async":
        return front._replace(before="async head" if front.wants == "assign" else token, wants="", target=True)
    is_free = front.free or front.wants == "assign"
    front = front._replace(wants="operand", free=False)
    if token == "#" and "pedantic" in mode and front.before not in (".", "?."):
        return front._replace(before="# in") if is_free else None
    if token == "#":
        return front._replace(before=token)
    if token == "new":
        return front._replace(before=token, news=front.news + 1)
    if token in ("super", "import"):
        return front._replace(before=token)
    if token in ("(", "[", "{"):
        return opened(front, {"(": ")", "[": "]", "{": "}"}[token], token, front.news)
    if token in TEMPLATE:
        return template(front, token)
    if token in ("function", "class"):
        return front._replace(before="", whole=(False, 0, False))
    reference = may_refer(token, mode)
    front = front._replace(target=reference and (token not in ("eval", "arguments") or "strict" not in mode))
    if reference and front.before == "delete" and "module" in mode:
        return front._replace(wants="")
    return done(front, front.target) if reference or token in ("1", "this") else None


def ended(front, token):
    """The front with a token more that ends an assignment expression, or None."""
    close = front.outer[-1][0] if front.outer else ""
    if (front.place and not (front.lead and writable(front))) or (front.before == "covered" and close in BARE):
        return None
    if close and token == ("}`" if close == "`" else close[0]):
        return closed(front)
    is_comma = token == "," or (token == "}${" and close == "`")
    if is_comma and close in COUNTED:
        last = (COUNTED[close],) + front.outer[-1][1:]
        return begun(front._replace(outer=front.outer[:-1] + (last,), area=front.level), "counted")
    if not is_comma or close not in AFTER_COMMA or front.place == "rest":
        return None
    return begun(front._replace(area=front.level), AFTER_COMMA[close])


def after_word(front, token, is_broken, mode):
    """The front with a token more after `yield`, or outside async code `await`, or None."""
    if front.before == "yield":
        ending = ended(front, token) or stopped(front, token, mode)
        if ending or is_broken:
            return ending
        return begun(front, "") if token == "*" else operand(begun(front, ""), token, mode)
    if is_broken or token in (")", "]", ",", ";") or token.startswith("}"):
        is_name = "module" not in mode and not (is_broken and token == "*")
        return operator(front._replace(before="update"), token, is_broken, mode) if is_name else None
    if "function" in mode or front.must:
        return None
    return operand(front._replace(before="", wants="operand", lead="", prefixed=True), token, mode)


def after_async(front, token, is_broken, mode):
    """The front with a token more after `async`, where that begins no arrow function, or None."""
    at_head = front.before == "async head" and not is_broken
    front = front._replace(before="")
    if token == "function" and not is_broken:
        return front._replace(wants="operand", whole=(False, 0, False))
    if at_head and token == "(":
        return opened(front, ")@", "args", front.news)
    if at_head and token == "of" and "ForAwaitHead" not in mode:
        return None
    return operator(front, token, is_broken, mode)


def written(front, token, mode):
    """The front with `of` or `in` more, after what is all of the head of a `for` so far and may be written to, or None."""
    is_last = mode & HEADS and token in ("of", "in") and not front.outer and front.lead == "only"
    return front._replace(before="whole", wants="operand") if is_last else None


def stopped(front, token, mode):
    """The front with `;` or `)` more, after what is all of the head of a `for`, or None."""
    is_last = mode & HEADS and token in (";", ")") and not front.outer
    return front._replace(before="whole", wants="operand") if is_last else None


def operator(front, token, is_broken, mode):
    """The front with a token more where an operand is complete, or None."""
    if front.before == "in" and token != "in":
        return None
    if front.before in ("yield", "await"):
        return after_word(front, token, is_broken, mode)
    if front.before in ("async", "async head"):
        return after_async(front, token, is_broken, mode)
    if token in ("of", "in") and mode & HEADS and not front.outer:
        return written(front, token, mode) if writable(front) else None
    if fitting(front) and stopped(front, token, mode):
        return stopped(front, token, mode)
    if front.before == "arrowed":
        return ended(front, token)
    if front.before == "covered" and token not in (",", ")"):
        front = front._replace(before="")
    if token in UPDATE:
        return front._replace(before="update", target=False) if writable(front) and not is_broken else None
    if token == "?" and front.before != "update":
        return front._replace(before=front.before + "?", wants="operand")
    if token in (".", "(", "[", *TEMPLATE):
        return link(front._replace(target=token == "."), token) if front.before != "update" else None
    if not fitting(front):
        return None
    if token == "?":
        return conditional(front) if not front.place else None
    if token in ("=", "+="):
        may_write = not front.place or (front.place == "one" and token == "=")
        return begun(front, "") if may_write and front.lead and writable(front) else None
    ending = ended(front, token)
    if ending:
        return ending
    family = {"??": "??", "||": "||", "&&": "||"}.get(token, front.family)
    mixed = front.family and family != front.family
    if token not in BINARY or mixed or (token == "**" and front.prefixed) or front.place:
        return None
    if token == "in" and "without_in" in mode and not front.outer:
        return None
    front = front._replace(family=family, before="", wants="operand", prefixed=False, whole=None)
    return front._replace(news=0, lead="", must=False, target=False, free=token in LOOSER)


def features(mode, area):
    """What a mode has, in the body of an arrow function or in none."""
    return mode - {"generator", "async"} | {"function"} | ({"async"} if area == "async" else set()) if area else mode


def others(front, token, mode):
    """The other fronts with a token more: where the first reads an expression, others read a pattern, or what an arrow function begins with."""
    if front.whole:
        return
    if front.what == "place" and front.before in ("elements", "element", "rest", "rest name"):
        place = "rest" if front.before.startswith("rest") else "one"
        yield operand(begun(front, "")._replace(place=place), token, mode)
        if front.before == "rest name":
            yield bound(front, token, "shut", mode)
    if front.before == "async head":
        if token == "(":
            yield opened(front, ")async list", "params+", 0, "cover")
        name = token in NAMES or token == "async" or token in RESERVED
        barred = RESERVED.get(token, set()) | UNBOUND.get(token, set()) | ({"strict"} if token == "await" else set())
        if name and not mode & barred:
            yield front._replace(before="async arrow", wants="operand")
    if front.wants != "assign" or front.before in PROPERTY or front.before in PATTERN:
        return
    if token in ("[", "{") and not (front.before == "body" and token == "{"):
        yield bound(front._replace(what="place"), token, "assigned", mode)
    if token == "(":
        yield opened(front, ")arrow", "params+", 0, "cover")
    if token != "let" and may_refer(token, mode) and not (token in ("eval", "arguments") and "module" in mode):
        yield front._replace(before="arrow", wants="operand")


def followed(front, token, mode):
    """The fronts with a token more, before which there is a line break where it is written with one."""
    mode = features(mode, front.area)
    is_broken = token.startswith("\\r")
    bare = token[2:] if is_broken else token
    if is_broken and front.before in BEFORE_ARROW and ("pedantic" in mode or front.before != "async arrow"):
        return
    yield operand(front, bare, mode) if front.wants else operator(front, bare, is_broken, mode)
    if not is_broken or front.wants:
        yield from others(begun(front, "") if front.before == "yield" else front, bare, mode)


def complete(front, mode):
    """Whether the front is an expression, or another whole."""
    if front.before == "whole":
        return not front.outer
    is_barred = front.before == "in" or (front.before == "await" and "module" in mode)
    return not front.wants and not front.outer and fitting(front) and not is_barred


# Where the lists of a symbol begin, but those of expressions.
BEGINNINGS = {
    "Pattern": Front((), "", "pattern", "operand", False),
    "Parameters": opened(Front((), "", "", "operand", False), ")whole", "params+", 0),
}


def counts(symbol, mode, tokens, longest):
    """How many of the lists of no token, of one, of two and so on are what the symbol is."""
    mode = features_of(symbol, mode, "")
    lists = Counter([frozenset([BEGINNINGS.get(symbol, Front((), "", "", "assign", False))])])
    for _ in range(longest + 1):
        yield sum(n for fronts, n in lists.items() if any(complete(front, mode) for front in fronts))
        longer = Counter()
        for fronts, n in lists.items():
            for token in tokens:
                after = frozenset(other for front in fronts for other in followed(front, token, mode) if other)
                if after:
                    longer[after] += n
        lists = longer


status = 0
for path in sorted(DATA.glob("*.rows")):
    for row in path.read_text().splitlines():
        if " | " in row:
            call, mode, tokens, given = row.split(" | ")
            symbol, longest = call.split(" ")
            right = " ".join(map(str, counts(symbol, mode, tokens.replace("\\|", "|").split(" "), int(longest))))
            if given.rpartition(" ")[0] != right:
                print(call, mode, tokens, right, sep=" | ")
                status = 1
sys.exit(status)
