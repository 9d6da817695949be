#!/usr/bin/env python3
"""Makes the rows of the calls that read names, each at each word in each mode, from the rules on words, apart from the parser that is tested against them.

    tests/name_rules.py            prints each line of crates/rows/data/name_rules.rows that the rules have otherwise; status 0 if none is
    tests/name_rules.py --write    writes the file
"""
import difflib
import sys
from pathlib import Path

FILE = Path(__file__).parent.parent / "crates/rows/data/name_rules.rows"
# The calls. `parse_ident` is told whether `yield` is included, and whether `await` is.
CALLS = """parse_ident(false, false)
parse_ident(true, false)
parse_ident(false, true)
parse_ident(true, true)
parse_ident_ref
parse_label_ident
parse_ident_name
parse_binding_ident
parse_opt_binding_ident
parse_module_export_name""".split("\n")
WORDS = """let yield await this if null true false enum static implements interface package private protected public
arguments eval async of a""".split()
MODES = ["script", "strict", "module", "generator", "module generator", "async", "script static_block", "script class_field"]
# The rules of ECMA-262, 13.1 and 15.7.1, a line each: calls, words, modes, and what these calls answer at these words in these modes. The word is written
# `_`, and is at 2..5. The first line that fits holds. After the answer comes what is recorded, at once (`now`) or once the source is a
# module (`later`), and `left` where the word is left.
RULES = """
parse_ident_name, parse_module_export_name | any | any | _ 2..5
parse_opt_binding_ident | this if null true false enum | any | none, left
parse_opt_binding_ident | let implements interface package private protected public | strict, module, module generator | none, left
parse_opt_binding_ident | yield | strict, module, generator, module generator | none, left
parse_opt_binding_ident | await | strict, module, module generator, async, script static_block | none, left
any | this if null true false | any | refused: ExpectedIdent 2..5
any | await | module, module generator, async | refused: InvalidIdentInAsync 2..5
any | await | script static_block | refused: ExpectedIdent 2..5
parse_ident(false, false), parse_ident(true, false) | await | any | refused: ExpectedIdent 2..5
parse_ident(false, false), parse_ident(false, true) | yield | module, module generator | refused: ExpectedIdent 2..5, now InvalidIdentInStrict 2..5 _
parse_ident(false, false), parse_ident(false, true) | yield | any | refused: ExpectedIdent 2..5, later InvalidIdentInStrict 2..5 _
parse_ident_ref, parse_label_ident | yield | module generator | refused: ExpectedIdent 2..5, now InvalidIdentInStrict 2..5 _
parse_ident_ref, parse_label_ident | yield | generator | refused: ExpectedIdent 2..5, later InvalidIdentInStrict 2..5 _
parse_binding_ident | yield | module generator | _ 2..5, now InvalidIdentInStrict 2..5 _, now ExpectedIdent 2..5
parse_binding_ident | yield | generator | _ 2..5, now ExpectedIdent 2..5, later InvalidIdentInStrict 2..5 _
any | enum | any | _ 2..5, now InvalidIdentInStrict 2..5 _
any | let yield static implements interface package private protected public | module, module generator | _ 2..5, now InvalidIdentInStrict 2..5 _
any | let yield static implements interface package private protected public | any | _ 2..5, later InvalidIdentInStrict 2..5 _
parse_binding_ident, parse_opt_binding_ident | arguments | script class_field | _ 2..5, now ArgumentsInClassField 2..5, later EvalAndArgumentsInStrict 2..5
any | arguments | script class_field | _ 2..5, now ArgumentsInClassField 2..5
parse_binding_ident, parse_opt_binding_ident | eval arguments | module, module generator | _ 2..5, now EvalAndArgumentsInStrict 2..5
parse_binding_ident, parse_opt_binding_ident | eval arguments | any | _ 2..5, later EvalAndArgumentsInStrict 2..5
any | any | any | _ 2..5
"""
TITLE = """# Names by the rules on words

Each call that reads a name, at each word in each mode, as the rules on words have it. First what the call answers, then
what is recorded; then the source is made a module's, and what that adds comes after the bar. This file is made by
tests/name_rules.py.
"""


def lists(listed, item, between):
    """Whether the item is one of those listed. Commas are in some calls too."""
    return listed == "any" or (between + listed + between).find(between + item + between) >= 0


def answer(call, word, mode):
    """What the row has to answer."""
    for rule in RULES.strip().split("\n"):
        calls, words, modes, answered = rule.split(" | ")
        if lists(calls, call, ", ") and lists(words, word, " ") and lists(modes, mode, ", "):
            return row_answer(answered.replace("_", word).split(", "))
    raise ValueError(f"no rule: {call} {word} {mode}")


def row_answer(parts):
    """What the row answers, of an answer and what comes after it."""
    now, later = ([part[len(when):] for part in parts if part.startswith(when)] for when in ("now ", "later "))
    return f"{parts[0]}; {', '.join(now) or 'none'}; done" + "".join(f" | {fault}" for fault in [", ".join(later)] if fault) + " | left 2..5" * ("left" in parts)


def text():
    out = TITLE
    for call in CALLS:
        for mode in MODES:
            out += f"\n{call}; take_errors; set_ctx module | {mode}:\n\n"
            out += "".join(f"    {word}@2..5 | {answer(call, word, mode)}\n" for word in WORDS)
    return out


if sys.argv[1:] == ["--write"]:
    FILE.write_text(text())
    sys.exit(0)
differing = [line for line in difflib.ndiff(FILE.read_text().split("\n"), text().split("\n")) if line[0] in "+-"]
print("\n".join(differing), end="\n" if differing else "")
sys.exit(1 if differing else 0)
