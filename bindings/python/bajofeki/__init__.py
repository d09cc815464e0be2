"""Lexers of rules that come at run time. What they answer is proved: bindings/README.md says what that means.

>>> lexer = Lexer("LET = 'let'\\nNAME = /[a-z]+/\\nSPACE skip = /\\\\s+/\\n")
>>> [(piece.kind.value, piece.rule, piece.text) for piece in lexer.pieces("let x?")]
[('token', 'LET', 'let'), ('skipped', 'SPACE', ' '), ('token', 'NAME', 'x'), ('fault', None, '?')]

A text is a str, or a buffer of bytes, as bytes, bytearray, memoryview or mmap. A buffer is read where it lies. It is held until the
last piece or `close()`, so a bytearray keeps its size; its bytes mustn't change meanwhile.
"""
import enum
import math
import struct
import sys
import threading
from array import array
from collections import deque
from ctypes import create_string_buffer
from typing import NamedTuple, Optional, Tuple, Union

from . import _library
from ._library import LIBRARY, Piece as _Piece, Room as _Room, Text as _Text
from ._library import actions as _actions, name as _name, word as _word, written as _written

__all__ = """Action Arrays Change Checked Columns Document Kind Lexer NotUtf8Error Outcome Piece Place Places Rule RulesError
    RulesErrorKind Stream TextPiece check diff dot""".split()

_DONE, _BAD_RANGE, _BAD_NAME, _FULL, _NOT_UTF8, _TOO_DEEP, _TOO_LARGE, _OUT_OF_MEMORY, _ENDED, _BAD_ARGUMENT = 0, 1, 1, 2, 3, 4, 6, 7, 8, 10
_NO_RULE = 4
_ROOM = 4096
_SHORT = 1 << 16
_ACTIONS = ("mode", "push", "pop")
_PIECES = struct.Struct("@INNN")
_made = tuple.__new__


class RulesErrorKind(enum.Enum):
    """What is wrong with the rules, by the code of a report."""

    BAD_LINE = 1
    NOT_PARSED = 2
    BAD_END = 3
    NOT_COMPILED = 4
    CLASH = 5
    TOO_LARGE = 6
    OUT_OF_MEMORY = 7


class RulesError(ValueError):
    """Why there is no lexer. What a kind doesn't have is 0, None or empty.

    >>> Lexer("IF = /if/\\nNAME = /[a-z]+/\\n")
    Traceback (most recent call last):
    bajofeki.RulesError: line 2, column 9: NAME and IF (line 1, column 7) clash: both match "if", and neither wins
    """

    kind: RulesErrorKind
    line: int  # where the line is wrong, or where the text of the rule begins, from 1
    column: int  # the column there, from 1, in characters
    rule: Optional[str]  # the name of the rule; in a clash, of the later one
    other: Optional[str]  # the name of the earlier rule of a clash
    other_line: int  # where the text of that one begins, from 1
    other_column: int  # the column there, from 1, in characters
    word: str  # the least word on which they clash; it may have surrogates
    position: int  # where in the rule's text it stops to parse, in bytes


def _rules_error(report, word, name):
    kind = RulesErrorKind(report.code)
    rule = name(report.rule) or None
    other = name(report.other) if kind is RulesErrorKind.CLASH else None
    other_place = f"line {report.other_line}, column {report.other_column}"
    reason = {
        RulesErrorKind.BAD_LINE: "this is no line of a file of rules",
        RulesErrorKind.NOT_PARSED: f"{rule}: the text of this rule doesn't parse from byte {report.position} on",
        RulesErrorKind.BAD_END: f"{rule}: the end of this rule is empty or has more than 64 characters",
        RulesErrorKind.NOT_COMPILED: f"{rule}: this rule can't be compiled",
        RulesErrorKind.CLASH: f'{rule} and {other} ({other_place}) clash: both match "{_shown(word)}", and neither wins',
        RulesErrorKind.TOO_LARGE: "there are no rules, or too many, or they are too large for a table",
        RulesErrorKind.OUT_OF_MEMORY: "out of memory",
    }[kind]
    error = RulesError((f"line {report.line}, column {report.column}: " if report.line else "") + reason)
    error.kind, error.line, error.column, error.position = kind, report.line, report.column, report.position
    error.rule, error.other, error.word = rule, other, word
    error.other_line, error.other_column = report.other_line, report.other_column
    return error


def _shown(word):
    return "".join(f"\\{c}" if c in '"\\' else c if c.isprintable() else f"\\u{{{ord(c):x}}}" for c in word)


class NotUtf8Error(ValueError):
    """A text isn't UTF-8, and has to be. `place` is the offset of its first bad byte.

    >>> Lexer("A = 'a'\\n").html(b"a\\xff")
    Traceback (most recent call last):
    bajofeki.NotUtf8Error: byte 1 of the text isn't UTF-8
    """

    place: int

    def __init__(self, place):
        super().__init__(place)
        self.place = place

    def __str__(self):
        return f"byte {self.place} of the text isn't UTF-8"


def _first_bad(data):
    """The offset of the first byte that isn't UTF-8."""
    try:
        return len(bytes(data).decode())
    except UnicodeDecodeError as error:
        return error.start


class Kind(enum.Enum):
    """What a piece is. The rest of a text is TOO_DEEP, and the last piece, where its first token would put a mode on top of more than
    1024 others. A FAULT is characters at none of which a rule matches."""

    TOKEN = "token"
    SKIPPED = "skipped"
    FAULT = "fault"
    TOO_DEEP = "too deep"


_KINDS = tuple(Kind)


class Columns(enum.Enum):
    """What columns count: the values are the names that the protocol of language servers has for it."""

    BYTES = "utf-8"
    CHARACTERS = "utf-32"
    UTF16 = "utf-16"


class Action(NamedTuple):
    """What a token of a rule does to the stack of modes. A text begins in the first mode, with none below it."""

    kind: str  # mode: this mode takes the place of the one on top; push: it comes on top; pop: the one on top goes, but the last one stays
    mode: Optional[str]  # its name, None of a pop


class Rule(NamedTuple):
    """A rule of a lexer. Several may have one name."""

    name: str
    is_skipped: bool
    actions: Tuple[Action, ...] = ()


class TextPiece(NamedTuple):
    """A part of a str. `start` and `end` are in characters; lines and columns count from 1."""

    kind: Kind
    rule: Optional[str]  # the name of its rule, None if it isn't a token
    text: str
    start: int
    end: int
    line: int
    column: int
    start_byte: int  # in the UTF-8 of the text
    end_byte: int
    number: Optional[int]  # of its rule in the lexer's rules, None if it isn't a token; of rules that are one kind the first


class Piece(NamedTuple):
    """A part of a buffer, a document or a stream. `start` and `end` are in bytes; the text of a buffer is bytes, else it's a str."""

    kind: Kind
    rule: Optional[str]
    text: Union[str, bytes]
    start: int
    end: int
    number: Optional[int]


class Arrays(NamedTuple):
    """All pieces of a text, in order, as arrays, which NumPy reads by `numpy.frombuffer(ends, "u8")`."""

    kinds: array  # "I": the place of the kind in `tuple(Kind)`
    rules: array  # "I": the number of the rule, 0 if it isn't a token
    ends: array  # "Q": where the piece ends, and the next one begins, in bytes


class Place(NamedTuple):
    """A place in a text. Both count from 1, and a line feed ends its line."""

    line: int
    column: int


# How Python writes what columns count, and in how many bytes each.
_UNITS = {Columns.BYTES: ("utf-8", 1), Columns.CHARACTERS: ("utf-32-le", 4), Columns.UTF16: ("utf-16-le", 2)}
# Of the bytes of a character all but the first, and the first ones of characters that are two units in UTF-16.
_OTHERS, _PAIRS = bytes(range(0x80, 0xC0)), bytes(range(0xF0, 0xF5))


def _width(part, columns):
    """How many columns a str takes, or bytes, which needn't be UTF-8."""
    if isinstance(part, str):
        codec, unit = _UNITS[columns]
        return len(part.encode(codec, "surrogatepass")) // unit
    pairs = len(part) - len(part.translate(None, _PAIRS)) if columns is Columns.UTF16 else 0
    return len(part) if columns is Columns.BYTES else len(part.translate(None, _OTHERS)) + pairs


def _after(place, part, columns):
    """The place after a part of a text that begins at this place."""
    feed = "\n" if isinstance(part, str) else b"\n"
    feeds, width = part.count(feed), _width(part[part.rfind(feed) + 1 :], columns)
    return Place(place.line + feeds, 1 + width if feeds else place.column + width)


class Places:
    """Finds the places of offsets in a text: in characters of a str, in bytes of a buffer. Asked in their order, it finds all of them
    in one pass.

    >>> Places("a\\n\U0001f600=1").at(4), Places("a\\n\U0001f600=1", Columns.UTF16).at(4)
    (Place(line=2, column=3), Place(line=2, column=4))
    """

    def __init__(self, text, columns=Columns.CHARACTERS):
        self._text, self._columns = text if isinstance(text, str) else memoryview(text).cast("B"), columns
        self._at, self._place = 0, Place(1, 1)

    def at(self, offset):
        """The place of this offset; past the end, the place of the end."""
        if offset < self._at:
            self._at, self._place = 0, Place(1, 1)
        part = self._text[self._at : offset]
        part = part if isinstance(part, str) else bytes(part)
        self._at, self._place = self._at + len(part), _after(self._place, part, self._columns)
        return self._place

    def __repr__(self):
        return f"<Places in {self._columns.name}>"


class Lexer:
    """A lexer of a file of rules, which is a str or bytes. Threads may share it. `rules` are its rules, in the order of their lines, and
    `modes` the names of its modes, numbered from 0, in the order in which the file first names them.

    >>> lexer = Lexer("A push B = 'a'\\n[B]\\nSPACE skip = ' '\\n")
    >>> lexer.rules
    (Rule(name='A', is_skipped=False, actions=(Action(kind='push', mode='B'),)), Rule(name='SPACE', is_skipped=True, actions=()))
    >>> lexer.modes
    ('INITIAL', 'B')

    Copies and pickles of a lexer, and of one of a subclass, are built of its rules.

    >>> class Named(Lexer):
    ...     def __init__(self, name, rules):
    ...         super().__init__(rules)
    ...         self.name = name
    >>> import copy
    >>> named = copy.copy(Named("mine", "B = 'b'\\nA = 'a'\\n"))
    >>> named.name, [piece.number for piece in named.pieces("ab?")], named
    ('mine', [1, 0, None], <Named of 2 rules>)
    """

    modes: Tuple[str, ...]
    rules: Tuple[Rule, ...]

    def __init__(self, rules):
        if hasattr(self, "_room"):
            raise TypeError("a lexer is built once")
        rules = _bytes_of(rules)
        room = _Room(LIBRARY.bajofeki_lexer_size(), lambda it: LIBRARY.bajofeki_build(it, rules, len(rules)), LIBRARY.bajofeki_free)
        report = LIBRARY.bajofeki_report(room.words)
        if report.code:
            raise _rules_error(report, _word(room.words), lambda rule: _name(LIBRARY.bajofeki_name, room.words, rule))
        # A cutter for the next text, which one thread at most takes out.
        self._file, self._room, self._spare = rules, room, deque(maxlen=1)
        modes = range(LIBRARY.bajofeki_modes(room.words))
        self.modes = tuple(_name(LIBRARY.bajofeki_mode_name, room.words, mode) for mode in modes)
        self.rules = tuple(map(self._rule, range(LIBRARY.bajofeki_rules(room.words))))
        self._names = [(rule.name, number) for number, rule in enumerate(self.rules)]

    def _rule(self, number):
        room = self._room.words
        found = (Action(_ACTIONS[kind], self.modes[mode] if kind < 2 else None) for kind, mode in _actions(room, number))
        return Rule(_name(LIBRARY.bajofeki_name, room, number), LIBRARY.bajofeki_skips(room, number), tuple(found))

    def __reduce__(self):
        # A copy, or one from a pickle, is built anew, without a subclass's own `__init__`: a lexer stays in its room.
        more = {name: it for name, it in vars(self).items() if name not in ("_file", "_names", "_room", "_spare", "modes", "rules")}
        return _rebuilt, (type(self), self._file), more or None

    def __repr__(self):
        return f"<{type(self).__name__} of {len(self.rules)} rules>"

    def pieces(self, text):
        """Cuts a text to its end, by its code in time linear in it, skipped tokens and faults too: a str into TextPieces, a buffer
        into Pieces.

        >>> next(Lexer("A = /a+/\\n").pieces(bytearray(b"aa?")))
        Piece(kind=<Kind.TOKEN: 'token'>, rule='A', text=b'aa', start=0, end=2, number=0)
        """
        text = _Text(text)
        pieces = (self._pieces_of_str if text.is_str else self._pieces_of_buffer)(text)
        # Only of what has begun does `close()` let go of the buffer.
        next(pieces)
        return pieces

    def _pieces_of_str(self, text):
        start, line, column = 0, 1, 1
        yield
        for kind, rule, at, length in self._pieces(text):
            part = text.data[at : at + length].decode("utf-8", "surrogatepass")
            end = start + len(part)
            name, number = self._names[rule] if kind < 2 else (None, None)
            # A tuple made so takes half of the time that `TextPiece(..)` does.
            yield _made(TextPiece, (_KINDS[kind], name, part, start, end, line, column, at, at + length, number))
            start, feeds = end, part.count("\n")
            line, column = line + feeds, len(part) - part.rfind("\n") if feeds else column + len(part)

    def _pieces_of_buffer(self, text):
        yield
        for block, _ in self._blocks(text):
            yield from self._told(block, text.data, 0, bytes)

    def _told(self, block, data, start, made_of):
        """The Pieces of a block; their texts are made of bytes, which begin at this offset."""
        for kind, rule, at, length in _PIECES.iter_unpack(block):
            name, number = self._names[rule] if kind < 2 else (None, None)
            part = made_of(data[at - start : at - start + length])
            yield _made(Piece, (_KINDS[kind], name, part, at, at + length, number))

    def arrays(self, text):
        """The pieces of a whole text, where speed counts: in a tenth of the time that `pieces` takes.

        >>> Lexer("A = /a+/\\nB = 'b'\\n").arrays("aab?")
        Arrays(kinds=array('I', [0, 0, 2]), rules=array('I', [0, 1, 0]), ends=array('Q', [2, 3, 4]))
        """
        arrays = Arrays(array("I"), array("I"), array("Q"))
        for block, end in self._blocks(_Text(text)):
            # A piece is four words of 64 bits: the low half of the first is its kind, the low half of the second its rule.
            halves, words = block.cast("I"), block.cast("Q")
            arrays.kinds.frombytes(halves[::8].tobytes())
            arrays.rules.frombytes(halves[2::8].tobytes())
            # A piece ends where the next one begins.
            arrays.ends.frombytes(words[6::4].tobytes())
            arrays.ends.append(end)
        return arrays

    def html(self, text):
        """The text as HTML: tokens in a span whose class is the rule's name, faults in a mark. NotUtf8Error of a buffer that isn't
        UTF-8, UnicodeEncodeError of surrogates.

        >>> Lexer("A = 'a'\\nLESS skip = '<'\\n").html("a<?")
        '<span class="A">a</span>&lt;<mark>?</mark>'
        """
        return self._page(LIBRARY.bajofeki_html, text)

    def ansi(self, text):
        """The text in colours for a terminal, which it can't control. Errors are those of `html`."""
        return self._page(LIBRARY.bajofeki_ansi, text)

    def _page(self, shows, text):
        text = _Text(text.encode() if isinstance(text, str) else text)
        page, data = _written(lambda out, room: shows(self._room.words, text.at, text.size, out, room), 2 * text.size)
        if page.code == _NOT_UTF8:
            raise NotUtf8Error(_first_bad(text.data))
        if page.code:
            raise MemoryError("no memory for the page of a text")
        return data.decode()

    def c_source(self, prefix="lex"):
        """The lexer as one source file in C, as `tokens --emit c` writes it, with names that begin with the prefix. ValueError if that isn't
        an identifier of ASCII letters, digits and _.

        >>> "mine_kind_A" in Lexer("A = 'a'\\n").c_source("mine")
        True
        """
        data = _bytes_of(prefix)
        call = lambda out, room: LIBRARY.bajofeki_c_source(self._room.words, data, len(data), out, room)
        return _source(call, f"{prefix!r} isn't an identifier")

    def rust_source(self):
        """The lexer as one source file in Rust, as `tokens --emit rust` writes it. ValueError if the name of a rule begins with a digit, or
        is _, self, super, crate or Self.

        >>> Lexer("self = 'a'\\n").rust_source()
        Traceback (most recent call last):
        ValueError: the name of a rule can't be that of a variant
        """
        call = lambda out, room: LIBRARY.bajofeki_rust_source(self._room.words, out, room)
        return _source(call, "the name of a rule can't be that of a variant")

    def lookahead(self, mode):
        """How many characters after a token of the mode with this number can leave open whether a longer one comes, or math.inf.

        >>> Lexer("A = /a(bc)?/\\n").lookahead(0)
        1
        """
        look = LIBRARY.bajofeki_lookahead(self._room.words, mode) if 0 <= mode < len(self.modes) else None
        if look is None:
            raise IndexError("there is no such mode")
        return math.inf if look.code else look.count

    def _pieces(self, text):
        """The pieces of a text as tuples of _Piece's fields."""
        for block, _ in self._blocks(text):
            yield from _PIECES.iter_unpack(block)

    def _blocks(self, text):
        """The pieces of a text as blocks of bytes, each valid up to the next, and where the last of a block ends. The rest of a text that
        goes too deep is one of the kind 3."""
        try:
            cutter = self._spare.pop()
            code = LIBRARY.bajofeki_begin_again(self._room.words, cutter.words, text.size) or _FULL
        except IndexError:
            begin = lambda it: LIBRARY.bajofeki_begin(self._room.words, it, text.size)
            cutter = _Room(LIBRARY.bajofeki_cutter_size(), begin, LIBRARY.bajofeki_end, self._room)
            code = cutter.begun or _FULL
        pieces = (_Piece * min(_ROOM, text.size or 1))()
        view = memoryview(pieces).cast("B")
        try:
            while code == _FULL:
                cut = LIBRARY.bajofeki_cut(self._room.words, cutter.words, text.at, text.size, pieces, len(pieces))
                code = cut.code
                if cut.count:
                    yield view[: cut.count * _PIECES.size], cut.end
            if code == _TOO_DEEP:
                pieces[0] = 3, 0, cut.end, text.size - cut.end
                yield view[: _PIECES.size], text.size
            if code == _OUT_OF_MEMORY:
                raise MemoryError("no memory for the cut of a text")
        finally:
            # That of a long text takes much memory. In a cycle that is garbage it has ended already.
            if text.size < _SHORT and cutter.end.alive:
                self._spare.append(cutter)
            else:
                cutter.end()


def _bytes_of(text):
    """A copy of the bytes of a buffer, or of a str those of its UTF-8."""
    return text.encode("utf-8", "surrogatepass") if isinstance(text, str) else bytes(memoryview(text))


def _source(call, reason):
    """The source file that a call writes; ValueError if a name can't stand in it."""
    page, source = _written(call, 1 << 16)
    if page.code == _BAD_NAME:
        raise ValueError(reason)
    if page.code:
        raise MemoryError("no memory for a source file")
    return source.decode()


def _rebuilt(kind, rules):
    """A lexer of this class, of a pickle or a copy."""
    lexer = kind.__new__(kind)
    Lexer.__init__(lexer, rules)
    return lexer


class Outcome(enum.Enum):
    """What a check of rules came to, a comparison or a drawing. A file that is FOUND has rules of which something was found, or that differ,
    or means something else than it seems to; if it is REFUSED, rules clash, or one can't be compiled; if it is UNREAD, a line is wrong, or a
    rule's text doesn't parse."""

    CLEAN = 0
    FOUND = 1
    REFUSED = 2
    UNREAD = 3


class Checked(NamedTuple):
    """What a check of rules found, a comparison or a drawing."""

    outcome: Outcome
    findings: Tuple[str, ...]  # the lines that `tokens --check` writes, or `--diff`, or `--dot`
    message: str  # why the rules can't be read or compiled; the warnings, unless lines are JSON


def check(rules, name="rules", is_json=False):
    """Checks a file of rules of this name, which is a str or bytes, as `tokens --check` does, with `--json` or without.

    >>> check("IF = 0 'if'\\nNAME = 1 /[a-z]+/\\n", "my.rules").findings[0]
    'my.rules:1:9: IF never wins: NAME wins "if"'
    >>> import json
    >>> checked = check("A = 'a'\\nB = 'a'\\n", is_json=True)
    >>> checked.outcome, [json.loads(it)["kind"] for it in checked.findings]
    (<Outcome.REFUSED: 2>, ['clash'])
    """
    return _answered(LIBRARY.bajofeki_check, _name_of(name), _bytes_of(rules), more=(is_json,))


def diff(rules, other, name="rules", other_name="others"):
    """Compares two files of rules of these names, each of which is a str or bytes, as `tokens --diff` does: for each mode it tells the least
    text that they cut into different tokens.

    >>> diff("A = 'a'\\n", "B = 'a'\\n", "old.rules", "new.rules").findings
    ('"a" is A in old.rules, and B in new.rules',)
    >>> diff("A = 'a'\\n", "A = /a/\\n").outcome
    <Outcome.CLEAN: 0>
    """
    return _answered(LIBRARY.bajofeki_diff, _name_of(name), _bytes_of(rules), _name_of(other_name), _bytes_of(other))


def dot(rules, rule=None, name="rules"):
    """Draws for Graphviz the automata of the modes of a file of rules of this name, which is a str or bytes, as `tokens --dot` does; or, if the
    name of a rule is given that isn't empty, of the rules that have it. If none has, a ValueError says so.

    >>> dot("A = 'a'\\n", "A").findings[0]
    'digraph {'
    >>> dot("A = 'a'\\n", "B")
    Traceback (most recent call last):
    ValueError: tokens: rules: no rule has the name "B"; leave it out to draw each mode
    """
    return _answered(LIBRARY.bajofeki_dot, _name_of(name), _bytes_of(rules), _name_of(rule or ""))


def _name_of(name):
    return name.encode("utf-8", "surrogatepass")


def _answered(function, *parts, more=()):
    """What the library answers about rules, given these bytes."""
    given = [it for part in parts for it in (part, len(part))]
    checked, data = _written(lambda out, room: function(*given, *more, out, room), 1 << 16)
    if checked.code == _BAD_ARGUMENT:
        raise ValueError("a name has a surrogate")
    if checked.code == _OUT_OF_MEMORY:
        raise MemoryError("no memory for a question about rules")
    if checked.code == _NO_RULE:
        raise ValueError(data.decode().rstrip("\n"))
    lines = tuple(it.decode() for it in data[: checked.found].splitlines())
    return Checked(Outcome(checked.code), lines, data[checked.found :].decode())


class Change(NamedTuple):
    """What an edit changed of the pieces of a document. Pieces are numbered from 0, and offsets are in bytes."""

    first: int  # how many pieces at the front stay
    removed: int  # how many old ones after those are gone
    inserted: int  # how many came in their place; all others are the old ones, shifted
    start: int  # where the first piece that is gone, or came, begins
    old_end: int  # where the last one that is gone ended in the old text
    new_end: int  # where the last one that came ends in the new text


def _failed(code):
    """The error of a code of the library."""
    kind, reason = {
        _BAD_RANGE: (ValueError, "the offsets aren't those of whole characters of the text"),
        _TOO_LARGE: (OverflowError, "the text would be too large"),
        _OUT_OF_MEMORY: (MemoryError, "no memory for the pieces of a text"),
        _ENDED: (ValueError, "the text has ended"),
    }[code]
    return kind(reason)


def _size(number):
    """A number for the library, which would take another one modulo 2 ^ 64."""
    if not 0 <= number <= sys.maxsize:
        raise ValueError("the text has no such place")
    return number


def _str(data):
    return str(data, "utf-8", "replace")


class _Open:
    """What a lexer has begun. It's closed by `close()` or the end of a `with`, and gives an error then. It is one thread's at a time:
    RuntimeError while another is in a call of it."""

    def __init__(self, lexer, what):
        if hasattr(self, "_room"):
            raise TypeError("it is begun once")
        size, begin, end = (getattr(LIBRARY, f"bajofeki_{what}_{it}") for it in ("size", "begin", "end"))
        self._room = _Room(size(), lambda it: begin(lexer._room.words, it), end, lexer._room)
        self._lexer, self._lock = lexer, threading.Lock()

    def _alone(self, call):
        if not self._lock.acquire(blocking=False):
            raise RuntimeError("another thread is in a call of it")
        try:
            return call()
        finally:
            self._lock.release()

    def _call(self, function, *words):
        return self._alone(lambda: function(self._room.words, *words))

    @property
    def lexer(self):
        """The lexer that began it."""
        return self._lexer

    def close(self):
        """Gives its memory back. A second call does nothing."""
        self._alone(self._room.end)

    def __enter__(self):
        return self

    def __exit__(self, *_):
        self.close()

    def __reduce__(self):
        raise TypeError("this can't be copied")

    def __repr__(self):
        return f"<{type(self).__name__}, {'open' if self._room.end.alive else 'closed'}>"


class Document(_Open):
    """A text that is edited, with its pieces. Offsets are in bytes of UTF-8. It keeps a copy of the text, and 12 bytes a piece.

    >>> document = Document(Lexer("LET = 'let'\\nNAME = /[a-z]+/\\nSPACE skip = ' '\\n"), "let x")
    >>> document.edit(4, 5, "yz").new_end, document.text, document.piece_at(4).text
    (6, 'let yz', 'yz')
    >>> [piece.rule for piece in document.pieces()], document.place(4), document.offset(1, 5)
    (['LET', 'SPACE', 'NAME'], Place(line=1, column=5), 4)
    """

    def __init__(self, lexer, text=""):
        super().__init__(lexer, "document")
        self.edit(0, 0, text)

    def edit(self, start, end, new):
        """Replaces what stands from one offset to another by a str or a buffer, and cuts anew the pieces that depend on it. Gives what
        changed of them. ValueError if the offsets aren't those of whole characters, NotUtf8Error of a buffer that isn't UTF-8,
        OverflowError from 4,294,967,295 bytes on; then nothing has changed."""
        new = _Text(new.encode() if isinstance(new, str) else new)
        found = self._call(LIBRARY.bajofeki_edit, _size(start), _size(end), new.at, new.size)
        if found.code == _NOT_UTF8:
            raise NotUtf8Error(_first_bad(new.data))
        if found.code:
            raise _failed(found.code)
        return Change(*(getattr(found, name) for name in Change._fields))

    def pieces(self, start=0, end=None):
        """The pieces that hold a byte from one offset to another, each whole; all pieces, if no offsets are given."""
        end, room = len(self) if end is None else end, _ROOM // 16
        while True:
            pieces = (_Piece * room)()
            found = self._call(LIBRARY.bajofeki_pieces, _size(start), _size(end), pieces, room)
            if found.code:
                raise _failed(found.code)
            if found.count <= room:
                break
            room = found.count
        start, last = pieces[0].start, pieces[found.count - 1]
        data = self._copy(start, last.start + last.length - start) if found.count else b""
        return list(self._lexer._told(memoryview(pieces).cast("B")[: found.count * _PIECES.size], data, start, _str))

    def piece_at(self, offset):
        """The piece that holds the byte at an offset; None at the end of the text, and after it."""
        return next(iter(self.pieces(offset, offset + 1)), None)

    def place(self, offset, columns=Columns.CHARACTERS):
        """The place of an offset. ValueError if it's in a character, or past the end."""
        found = self._call(LIBRARY.bajofeki_place, _size(offset))
        if not found.line:
            raise _failed(_BAD_RANGE)
        start = self._call(LIBRARY.bajofeki_offset, found.line, 1).at
        return Place(found.line, 1 + _width(self._copy(start, offset - start), columns))

    def offset(self, line, column, columns=Columns.CHARACTERS):
        """The offset of a place, of which the column may be the one after the last of its line. ValueError if there is no such place."""
        found, codec, unit = self._call(LIBRARY.bajofeki_offset, _size(line), 1), *_UNITS[columns]
        # A column takes four bytes at most.
        line = self._copy(found.at, min(4 * _size(column - 1), len(self) - found.at)).decode("utf-8", "ignore").partition("\n")[0]
        front = line.encode(codec)[: unit * (column - 1)].decode(codec, "ignore")
        if not found.line or _width(front, columns) < column - 1:
            raise ValueError("the text has no such place")
        return found.at + len(front.encode())

    @property
    def text(self):
        """The text."""
        return self._copy(0, len(self)).decode()

    def __len__(self):
        """How many bytes the text has."""
        return self._call(LIBRARY.bajofeki_copy, 0, b"", 0)

    def _copy(self, start, size):
        out = create_string_buffer(size or 1)
        self._call(LIBRARY.bajofeki_copy, start, out, size)
        return out.raw[:size]


class Stream(_Open):
    """A text that comes in chunks of any bytes. Going over it gives the Pieces that no later chunk can change, each once. What isn't UTF-8
    lies in faults; its text has U+FFFD.

    >>> with Stream(Lexer("NAME = /[a-z]+/\\nSPACE skip = ' '\\n")) as stream:
    ...     stream.feed("let x")
    ...     print([piece.text for piece in stream])
    ...     stream.feed(b"y")
    ...     stream.finish()
    ...     print([piece.text for piece in stream])
    ['let', ' ']
    ['xy']
    """

    def __init__(self, lexer):
        super().__init__(lexer, "stream")
        # What has come of the text and stands in no piece, where that begins, and pieces to be given.
        self._rest, self._at, self._given = bytearray(), 0, deque()

    def feed(self, chunk):
        """More of the text comes: a str, or a buffer, which may end in a character. ValueError once the text has ended."""
        self._feed(chunk, False)

    def finish(self):
        """The text has ended."""
        self._feed(b"", True)

    def _feed(self, chunk, is_last):
        chunk = _Text(chunk.encode() if isinstance(chunk, str) else chunk)
        code = self._call(LIBRARY.bajofeki_feed, chunk.at, chunk.size, is_last)
        if code != _DONE:
            raise _failed(code)
        self._rest += chunk.data

    def __iter__(self):
        while self._given or self._takes_pieces():
            yield self._given.popleft()

    def _takes_pieces(self):
        """Whether there are pieces to be given."""
        pieces = (_Piece * (_ROOM // 16))()
        found = self._call(LIBRARY.bajofeki_next, pieces, len(pieces))
        self._given += self._lexer._told(memoryview(pieces).cast("B")[: found.count * _PIECES.size], self._rest, self._at, _str)
        if found.count:
            end = self._given[-1].end
            del self._rest[: end - self._at]
            self._at = end
        if found.code not in (_DONE, _FULL):
            raise _failed(found.code)
        return found.count
