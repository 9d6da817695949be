"""ecma for Python: programs of ECMAScript are checked, parsed as ESTree, laid out, and taken apart.

    >>> import ecma
    >>> ecma.parse('a + 1')['body'][0]['type']
    'ExpressionStatement'

The library is libecma.so beside this file, or the one that the variable ECMA_LIBRARY names. Lines and columns are counted
from 1; `start` and `end` are UTF-16 units, as JavaScript counts them.
"""
import ctypes
import json
import os
from pathlib import Path
from typing import Any, Dict, List, NoReturn

__all__ = ['Fault', 'check', 'format', 'names', 'parse', 'tokens', 'version']

GOALS = {'any': 0, 'script': 1, 'module': 2, 'commonjs': 3}
COMMAS = {'all': 0, 'lists': 1, 'none': 2}
DONE, FAULT, NO_ROOM, NOT_UTF8, BAD_OPTION, OUT_OF_MEMORY, TOO_DEEP = range(7)
# So much room an answer has at first.
ROOM = 1 << 16


class Fault(SyntaxError):
    """What is wrong with a program: `msg`, `start`, `end`, `lineno` and `offset`."""

    def __init__(self, message: str, start: int, end: int, line: int, column: int) -> None:
        super().__init__(message, ('<text>', line, column, None))
        self.start = start
        self.end = end


class _Options(ctypes.Structure):
    _fields_ = [(name, ctypes.c_uint32) for name in ('goal', 'levels', 'extras', 'most', 'width', 'indent', 'commas')]


class _Outcome(ctypes.Structure):
    _fields_ = [('status', ctypes.c_uint32), ('goal', ctypes.c_uint32), ('needed', ctypes.c_size_t)] + [
        (name, ctypes.c_uint32) for name in ('lo', 'hi', 'start', 'end', 'line', 'column')
    ]


_library = ctypes.CDLL(os.environ.get('ECMA_LIBRARY') or str(Path(__file__).parent / 'libecma.so'))
for _name in ('ecma_check', 'ecma_estree', 'ecma_format', 'ecma_names', 'ecma_tokens'):
    _function = getattr(_library, _name)
    _function.argtypes = [ctypes.c_char_p, ctypes.c_size_t, ctypes.POINTER(_Options), ctypes.c_void_p, ctypes.c_size_t, ctypes.POINTER(_Outcome)]
    _function.restype = None
_library.ecma_version.argtypes = [ctypes.c_void_p, ctypes.c_size_t]
_library.ecma_version.restype = ctypes.c_size_t


def _chosen(words: Dict[str, int], name: str, word: str) -> int:
    if word not in words:
        raise ValueError('%s is one of %s, and not %r' % (name, ', '.join(words), word))
    return words[word]


def _refuse(outcome: _Outcome, answer: str) -> NoReturn:
    if outcome.status == BAD_OPTION:
        raise ValueError('an option has a value that it may not have')
    if outcome.status == OUT_OF_MEMORY:
        raise MemoryError
    raise Fault(answer, outcome.start, outcome.end, outcome.line, outcome.column)


def _ask(name: str, text: str, **options: int) -> 'tuple[_Outcome, str]':
    """What a function of the library answers for a text: it is asked again where its answer takes more room."""
    data = text.encode('utf-8', 'replace')
    asked, outcome, size = _Options(**options), _Outcome(), max(ROOM, 2 * len(data))
    while True:
        room = ctypes.create_string_buffer(size)
        getattr(_library, name)(data, len(data), ctypes.byref(asked), room, size, ctypes.byref(outcome))
        if outcome.needed <= size:
            return outcome, room.raw[: outcome.needed].decode()
        size = outcome.needed


def _answer(name: str, text: str, **options: int) -> str:
    outcome, answer = _ask(name, text, **options)
    if outcome.status != DONE:
        _refuse(outcome, answer)
    return answer


def parse(
    text: str,
    goal: str = 'any',
    *,
    loc: bool = False,
    range: bool = False,
    comments: bool = False,
    tokens: bool = False,
    levels: int = 0,
) -> Dict[str, Any]:
    """The ESTree of a program. Raises a Fault."""
    extras = loc + 2 * range + 4 * comments + 8 * tokens
    return json.loads(_answer('ecma_estree', text, goal=_chosen(GOALS, 'goal', goal), extras=extras, levels=levels))


def check(text: str, goal: str = 'any', *, most: int = 0, levels: int = 0) -> List[Dict[str, Any]]:
    """What is wrong with a program, early errors too: `start`, `end`, `line`, `column`, `endLine`, `endColumn` and `message`."""
    outcome, answer = _ask('ecma_check', text, goal=_chosen(GOALS, 'goal', goal), most=most, levels=levels)
    if outcome.status not in (DONE, FAULT):
        _refuse(outcome, answer)
    return json.loads(answer)


def format(text: str, goal: str = 'any', *, width: int = 0, indent: int = 0, commas: str = 'all', levels: int = 0) -> str:
    """A program in its layout. Raises a Fault."""
    options = {'width': width, 'indent': indent, 'commas': _chosen(COMMAS, 'commas', commas)}
    return _answer('ecma_format', text, goal=_chosen(GOALS, 'goal', goal), levels=levels, **options)


def names(text: str, goal: str = 'any', *, levels: int = 0) -> List[Dict[str, Any]]:
    """The names of a program: `name`, `start`, `end`, `use` and `binding`. Raises a Fault."""
    return json.loads(_answer('ecma_names', text, goal=_chosen(GOALS, 'goal', goal), levels=levels))


def tokens(text: str, goal: str = 'any') -> List[Dict[str, Any]]:
    """The tokens of a text: `type`, `start`, `end` and `text`. Raises a Fault."""
    return json.loads(_answer('ecma_tokens', text, goal=_chosen(GOALS, 'goal', goal)))


def version() -> str:
    """Which version the library is."""
    room = ctypes.create_string_buffer(256)
    length = _library.ecma_version(room, 256)
    return room.raw[:length].decode()
