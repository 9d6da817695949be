#!/usr/bin/env python3
"""Derives the lists of a few tokens that are expressions, patterns or parameters by ECMA-262's productions, apart from the parser.

    tests/derive.py [FILE ..]          says which rows have something else than is derived; without a file, of crates/lists/data
    tests/derive.py --write FILE ..    writes what is derived into the files
    tests/derive.py --show ROW         prints the lists of one row, each with its tree, as the program `lists` does

Each row of a file, `SYMBOL LONGEST | MODE | TOKENS | COUNTS CHECKSUM`, says what the symbol derives of the tokens: how many lists of no token, of
one, of two and so on, and the CRC-32 of these lists with their trees. The productions are in tests/productions.txt, which says how they are
written. Status 0 if no row has something else.
"""
import sys
import zlib
from collections import defaultdict, namedtuple
from pathlib import Path

TESTS = Path(__file__).parent
BRACKETS = ("(", ")", "[", "]", "{", "}")
# What a mode, a symbol, or the code of an arrow function's body has besides its name.
FEATURES = {
    "module": {"strict"},
    "generator": {"function", "target"},
    "async": {"function", "target"},
    "ForHead": {"without_in"},
    "ForAwaitHead": {"without_in"},
}
# A line of the productions. `code` is that of arrow functions' bodies that it is in, or nothing.
Production = namedtuple("Production", "name items tree within is_bare")


def ends(token):
    """Whether an operand may end before this token, of which the first may be none."""
    return token == "" or token[0] in ")],};" or (token.startswith("\\r") and token != "\\r*")


# What may follow each mark.
MARKS = {
    "@": ends,
    "no-break": lambda token: not token.startswith("\\r"),
    "no-brace": lambda token: token != "{",
    "no-paren": lambda token: token != "(",
    "no-paren-of": lambda token: token not in ("(", "of"),
}


def is_symbol(item):
    return "A" <= item[0] <= "Z"


def parted(line, word):
    """What is before the word, and what is after it."""
    front, _, rest = line.partition(" " + word + " ")
    return front, rest


def in_code(item, code):
    """The item, as a symbol of such code: that of an arrow function's body, plain or async, or of none."""
    if not is_symbol(item):
        return item
    name, _, own = item.partition("~")
    return name + "~" + (own or code) if own or code else name


def features_of(symbol, mode, code):
    """What the mode has, where the symbol is read, in such code."""
    has = {symbol} | set(mode.split(" "))
    for word in list(has):
        has |= FEATURES.get(word, set())
    if code:
        has = has - {"generator", "async"} | {"function", code}
    return has


def read_line(line, tokens, has, code):
    """The production of a line, or None if code that has this has no such production, of these tokens."""
    line, within = parted(line, "within")
    line, needed = parted(line, "only")
    line, barred = parted(line, "unless")
    is_bare = line.endswith(" bare")
    name, form = parted(line.removesuffix(" bare"), "=")
    items, tree = parted(form, "->")
    items = items.split(" ")
    if not all(is_symbol(item) or item in MARKS or item in tokens for item in items):
        return None
    if not set(needed.split()) <= has or set(barred.split()) & has:
        return None
    return Production(in_code(name, code), [in_code(item, code) for item in items], tree, int(within or 0), is_bare)


def productions_of(lines, symbol, mode, tokens):
    """The productions by which the symbol derives lists of these tokens, in their order."""
    codes = [(code, features_of(symbol, mode, code)) for code in ("", "plain", "async")]
    found = [read_line(line, tokens, has, code) for line in lines for code, has in codes]
    found = [production for production in found if production]
    reached, count = {symbol}, 0
    while count < len(reached):
        count = len(reached)
        reached |= {item for production in found if production.name in reached for item in production.items}
    return [production for production in found if production.name in reached]


def is_covered(tree):
    """Whether the tree is an object with a property `name = value`."""
    depth, has_value = 0, False
    for place, letter in enumerate(tree):
        depth += (letter in "([{") - (letter in ")]}")
        has_value |= letter == "=" and depth == 1
        if depth == 0 and place >= len("Object"):
            return tree.startswith("Object{") and has_value and place == len(tree) - 1
    return False


def filled(tree, part):
    """The tree with the part in place of its first `_`, where the part has a tree."""
    return tree.replace("_", part, 1) if part else tree


def made(production, found, length):
    """The readings of this length that are made by the production, of shorter ones that were found."""
    fronts = {0: [((), production.tree.replace("$", str(length)))]}
    for item in production.items:
        longer = defaultdict(list)
        for size, parts in list(found[item].items()):
            for front, readings in fronts.items():
                if front + size <= length:
                    longer[front + size] += [(a + b, filled(tree, part)) for a, tree in readings for b, part in parts]
        fronts = longer
    return [reading for reading in fronts.get(length, []) if not (production.is_bare and is_covered(reading[1]))]


def is_allowed(items):
    """Whether what follows each mark may follow it."""
    following = ""
    for item in reversed(items):
        if item not in MARKS:
            following = item
        elif not MARKS[item](following):
            return False
    return True


def marks_and_tokens(tokens):
    """The readings that are found without a production, by name and length: those of the marks, and of the tokens."""
    found = defaultdict(lambda: defaultdict(list))
    for mark in MARKS:
        found[mark][0].append(((mark,), ""))
    for token in tokens:
        for name in (token,) if token in BRACKETS else (token, "Any", "Any~plain", "Any~async"):
            found[name][1].append(((token,), ""))
    return found


def derived(lines, symbol, mode, tokens, longest):
    """Each list that the symbol derives, with its tree: in the order of the tokens, one before those that begin with it."""
    found = marks_and_tokens(tokens)
    productions = productions_of(lines, symbol, mode, tokens)
    for length in range(longest + 1):
        for production in productions:
            readings = made(production, found, length) if length + production.within <= longest else []
            if readings:
                found[production.name][length] += readings
    lists = [([item for item in items if item not in MARKS], tree) for one in found[symbol].values() for items, tree in one if is_allowed(items)]
    return sorted(lists, key=lambda one: ([tokens.index(token) for token in one[0]], one[1]))


def lists_of(lines, row):
    """What the row's symbol derives."""
    call, mode, tokens, *_ = row.split(" | ")
    symbol, longest = call.split(" ")
    tokens = ["|" if token == "\\|" else token for token in tokens.split(" ")]
    known = {item for line in lines for item in line.split(" ")}
    if not set(tokens) <= known:
        sys.exit("no production has one of the tokens: " + row)
    return derived(lines, symbol, mode, tokens, int(longest)), int(longest)


def written(items, tree):
    """The list and its tree, as the program writes them."""
    return " ".join("\\|" if item == "|" else item for item in items) + " = " + tree + "\n"


def answer(lines, row):
    """What the row has to say: the counts, and the checksum."""
    lists, longest = lists_of(lines, row)
    counts = [sum(len(items) == length for items, _ in lists) for length in range(longest + 1)]
    text = "".join(written(items, tree) for items, tree in lists)
    return " ".join(map(str, counts)) + " %08x" % zlib.crc32(text.encode())


def answered(lines, path):
    """The lines of a file, with what is derived in each row. Prints the rows that have something else."""
    out = []
    for line in path.read_text().splitlines():
        if " | " in line:
            front = " | ".join(line.split(" | ")[:3]).removesuffix(" |")
            out.append(front + " | " + answer(lines, front))
            if out[-1] != line and sys.argv[1:2] != ["--write"]:
                print("%s:\n- %s\n+ %s" % (path.name, line, out[-1]), flush=True)
        else:
            out.append(line)
    return "".join(line + "\n" for line in out)


def main(arguments):
    lines = [line for line in (TESTS / "productions.txt").read_text().splitlines() if line and line[0] != "#"]
    if arguments[:1] == ["--show"]:
        sys.stdout.writelines(written(items, tree) for items, tree in lists_of(lines, arguments[1])[0])
        return 0
    is_written = arguments[:1] == ["--write"]
    paths = [Path(name) for name in arguments[is_written:]] or sorted((TESTS.parent / "crates/lists/data").glob("*.rows"))
    status = 0
    for path in paths:
        text = answered(lines, path)
        status |= text != path.read_text()
        if is_written:
            path.write_text(text)
    return 0 if is_written else status


if __name__ == "__main__":
    sys.exit(main(sys.argv[1:]))
