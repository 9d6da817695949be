#!/usr/bin/env python3
"""Counts the lists of a few tokens that are parameters, and that are read as such in two ways, apart from the parser that is tested against it.

    tests/count_params.py

Reads the rows of crates/rows/data/both_ways.rows (docs/TESTS.md), and counts anew how many lists of no token, of one, of two and so on are read
cleanly in both ways: as what is in the parentheses of an arrow function's parameters, by way of expressions, and as formal parameters. The two
numbers after that are of the lists of all these lengths that are read so in the first way alone, and in the second alone. Prints each row that
differs, with the right numbers. Status 0 if none does.

A list is read by the grammar of FormalParameters (ECMA-262, 15.1), in both ways: elements with commas between them, after the last one a comma or
dots and a pattern. An element is a pattern and, after a `=`, an assignment expression or none. A pattern is a name that is bound, or brackets or
braces around others. Between brackets an element may be left out, and dots come before the last one alone, which has no `=`. Between braces are
a word, with `=` and an assignment expression or none; a key, `:` and an element; and dots and a name that is bound, the last.

What differs is the words. As formal parameters those are bound that the mode doesn't reserve, where strict code's own are reserved in modules alone,
since no fault of theirs is recorded elsewhere; a word alone between braces isn't reserved, and one with a `=` is any. By way of expressions a word that
is bound is an operand of the mode, and in modules not `eval` or `arguments`, which holds of a word between braces too, with a `=` or none; `await` is one
where a comma, what closes something or the end follows.

An assignment expression is an operand, with links (brackets, or parentheses with arguments) after it or none; `await` and an operand; such with `*`
between them; in a generator `yield`, with an assignment expression after it or `*` and one, or none; or what may be written to, `=` and another. What may be written to is a name,
in strict code not `eval` or `arguments`, an operand that ends with a bracket, or one of these in parentheses; or brackets and braces around others. A word
`await` is an operand as it is bound, and a prefix operator else, but in generators.
"""
import sys
from itertools import product

sys.dont_write_bytecode = True
from rows import read

# Which modes bar a word as an operand, as a name that is bound, and as a word alone between braces. `yield` in a generator and `await` in async code
# and in modules are operators. The other words are names.
BARRED = {"let": {"module"}, "static": {"module"}, "implements": {"strict"}, "yield": {"strict", "generator"}}
BARRED |= {"arguments": {"class_field"}, "await": {"module", "async"}}
UNBOUND = {"let": {"module"}, "static": {"module"}, "implements": {"module"}, "yield": {"module", "generator"}, "eval": {"module"}}
UNBOUND |= {"arguments": {"module", "class_field"}, "await": {"module", "async", "static_block"}}
RESERVED = {"let": {"strict"}, "implements": {"strict"}, "yield": {"strict", "generator"}, "await": {"module", "async", "static_block"}}
# Those that are no names in any mode, and of these the one that is an operand.
KEYWORDS = ("this", "if")
RESTRICTED = ("eval", "arguments")
CLOSING = ("", ")", "]", "}", ",")


class Reading:
    """A list that is read in one of the two ways. Each method answers where what it reads from a place on may end."""

    def __init__(self, tokens, mode, way):
        self.tokens, self.mode, self.way = tokens, mode, way

    def at(self, place):
        return self.tokens[place] if place < len(self.tokens) else ""

    def bars(self, words, place):
        """Whether there is no word there, or one that the mode bars."""
        word = self.at(place)
        return not word.isalpha() or word in KEYWORDS or bool(self.mode & words.get(word, set()))

    def refers(self, place):
        """Whether there is a word that is an operand."""
        return not self.bars(BARRED, place) and (self.at(place) != "await" or self.at(place + 1) in CLOSING)

    def is_restricted(self, place):
        return self.at(place) in RESTRICTED and "module" in self.mode

    def is_bound(self, place):
        if self.way == "arrow":
            return self.refers(place) and not self.is_restricted(place)
        return not self.bars(UNBOUND, place)

    def is_short(self, place):
        """Whether there is a word that may be alone between braces, or with a `=`."""
        is_open = not self.bars(RESERVED, place)
        if self.way == "arrow":
            return is_open and not self.is_restricted(place)
        return is_open or (self.at(place).isalpha() and self.at(place + 1) == "=")

    def parameters(self, place):
        yield place
        yield from self.rest(place)
        for end in self.element(place):
            yield end
            if self.at(end) == ",":
                yield from self.parameters(end + 1)

    def rest(self, place):
        if self.at(place) == "...":
            yield from self.pattern(place + 1)

    def element(self, place):
        for end in self.pattern(place):
            yield end
            if self.at(end) == "=":
                yield from self.assignment(end + 1)

    def pattern(self, place):
        yield from self.bound_name(place)
        yield from self.bracketed(place, self.elements(self.element, self.pattern))
        yield from self.braced(place, self.properties(self.bound_property, self.bound_name))

    def bracketed(self, place, inner, opening="[", closing="]"):
        if self.at(place) == opening:
            for end in inner(place + 1):
                if self.at(end) == closing:
                    yield end + 1

    def braced(self, place, inner):
        return self.bracketed(place, inner, "{", "}")

    def listed(self, one, last, has_holes):
        """What is between brackets or braces, where what is after dots is the last. Brackets may have holes."""
        def inner(place):
            yield place
            if has_holes and self.at(place) == ",":
                yield from inner(place + 1)
            if self.at(place) == "...":
                yield from last(place + 1)
            for end in one(place):
                yield end
                if self.at(end) == ",":
                    yield from inner(end + 1)
        return inner

    def elements(self, one, last):
        return self.listed(one, last, True)

    def properties(self, one, last):
        return self.listed(one, last, False)

    def bound_name(self, place):
        if self.is_bound(place):
            yield place + 1

    def bound_property(self, place):
        if self.is_short(place):
            yield place + 1
            if self.at(place + 1) == "=":
                yield from self.assignment(place + 2)
        for end in self.key(place):
            yield from self.element(end)

    def key(self, place):
        """A key and the `:` after it."""
        ends = [place + 1] if self.at(place).isalpha() else self.bracketed(place, self.assignment)
        for end in ends:
            if self.at(end) == ":":
                yield end + 1

    def assignment(self, place):
        if self.at(place) == "yield" and "generator" in self.mode:
            yield place + 1
            yield from self.assignment(place + (2 if self.at(place + 1) == "*" else 1))
            return
        yield from self.multiplied(place)
        for end in self.target(place):
            if self.at(end) == "=":
                yield from self.assignment(end + 1)

    def multiplied(self, place):
        for end in self.prefixed(place):
            yield end
            if self.at(end) == "*":
                yield from self.multiplied(end + 1)

    def prefixed(self, place):
        is_operator = self.at(place + 1) not in CLOSING or not self.mode.isdisjoint({"module", "async"})
        if self.at(place) == "await" and is_operator and "generator" not in self.mode:
            yield from self.prefixed(place + 1)
        for end, _ in self.operand(place):
            yield end

    def target(self, place):
        yield from self.written(place)
        yield from self.bracketed(place, self.elements(self.target_element, self.target))
        yield from self.braced(place, self.properties(self.target_property, self.written))

    def target_element(self, place):
        for end in self.target(place):
            yield end
            if self.at(end) == "=":
                yield from self.assignment(end + 1)

    def written(self, place):
        """An operand that may be written to."""
        return (end for end, writable in self.operand(place) if writable)

    def target_property(self, place):
        if not self.bars(RESERVED, place) and not self.is_restricted(place):
            yield place + 1
            if self.at(place + 1) == "=":
                yield from self.assignment(place + 2)
        for end in self.key(place):
            yield from self.target_element(end)

    def operand(self, place):
        """Where operands end, and whether they may be written to."""
        for end, writable in self.primary(place):
            yield end, writable
            if self.at(end - 1) != "await":
                yield from self.linked(end)

    def linked(self, place):
        """Where links end, the last of which is a bracket or isn't."""
        for ends, writable in ((self.bracketed(place, self.sequence), True), (self.bracketed(place, self.arguments, "(", ")"), False)):
            for end in ends:
                yield end, writable
                yield from self.linked(end)

    def primary(self, place):
        if self.refers(place):
            yield place + 1, self.at(place) not in RESTRICTED or "strict" not in self.mode
        if self.at(place) == "this":
            yield place + 1, False
        for ends in (self.bracketed(place, self.items), self.braced(place, self.members)):
            yield from ((end, False) for end in ends)
        yield from self.parenthesised(place)

    def parenthesised(self, place):
        for end in self.bracketed(place, self.sequence, "(", ")"):
            yield end, any(inner == end - 1 and writable for inner, writable in self.operand(place + 1))

    def sequence(self, place):
        for end in self.assignment(place):
            yield end
            if self.at(end) == ",":
                yield from self.sequence(end + 1)

    def arguments(self, place):
        yield place
        for end in self.assignment(place + (self.at(place) == "...")):
            yield end
            if self.at(end) == ",":
                yield from self.arguments(end + 1)

    def items(self, place):
        yield from self.arguments(place)
        if self.at(place) == ",":
            yield from self.items(place + 1)
        for end in self.assignment(place + (self.at(place) == "...")):
            if self.at(end) == ",":
                yield from self.items(end + 1)

    def members(self, place):
        yield place
        for end in self.member(place):
            yield end
            if self.at(end) == ",":
                yield from self.members(end + 1)

    def member(self, place):
        if self.at(place) == "...":
            yield from self.assignment(place + 1)
        if not self.bars(RESERVED, place):
            yield place + 1
            if self.at(place + 1) == "=":
                yield from self.assignment(place + 2)
        for end in self.key(place):
            yield from self.assignment(end)


def is_read(tokens, mode, way):
    return len(tokens) in Reading(tokens, mode, way).parameters(0)


def counted(tokens, setting, longest):
    mode = set(setting.split())
    mode |= {"strict"} & {"strict" for _ in mode & {"module"}}
    both, arrow_alone, formal_alone = [], 0, 0
    for length in range(longest + 1):
        both.append(0)
        for listed in product(tokens, repeat=length):
            arrow, formal = is_read(listed, mode, "arrow"), is_read(listed, mode, "formal")
            both[-1] += arrow and formal
            arrow_alone += arrow and not formal
            formal_alone += formal and not arrow
    return [" ".join(map(str, both)), str(arrow_alone), str(formal_alone)]


status = 0
for row in read("both_ways.rows"):
    _, longest = row.calls.rsplit(" ", 1)
    if longest.isdecimal():
        right = counted(row.text.split(), row.setting, int(longest))
        if row.answers != right:
            print(*row[:3], *right, sep=" | ")
            status = 1
sys.exit(status)
