r"""What an action of flex reads by itself, as a comment up to its end: loops of C that take one character after another by `input()`.

Such code is run on characters. Its one variable is overwritten by each call of `input()`, so what the code does with the next character
depends only on the place of the call: these places are the states of an automaton. The text may end at each of them, so the code reads the
longest text that the automaton can read.

>>> def shown(code):
...     found = read_by(tokens_of(code))
...     return found and (pattern_of(found.tree, {}), found.rest, found.is_endless)
>>> print(*shown(r"{ int c; while ((c = input()) != 0 && c != '\n') ++lines; return LINE; }"))
[^\x{0}\n]*[\x{0}\n]? return LINE ; } False
>>> print(*shown(r"int c; while ((c = yyinput()) != EOF) if (c == '\n') { unput(c); break; }"))
.*  True
>>> manual = "{ while ((c = input()) != '*' && c != EOF) ; if (c == '*') { while ((c = input()) == '*') ; if (c == '/') break; }"
>>> print(*shown("register int c; for (;;)" + manual + "if (c == EOF) { error(); break; } }"))
(?:[^\*]|\*\**[^\*/])*(?:\*\**/?)?  True
>>> for more in "f();", "c = 1;", "if (deep) c = input();", "while (1) ;", "if (c == 'x') f();", "if (c == EOF) { unput(c); break; }":
...     assert not shown(f"int c; for (;;) {manual} {more} }}"), more
"""
import re
from collections import namedtuple

from .flex_actions import COUNT, CUT, OTHER_TEXT, STATE, closing, tokens_of
from .flex_patterns import NOTHING, PatternReader, in_series, one_of, pattern_of

CALLS = {"input", "yyinput", "unput"}
READ = r"(\w+) = (?:yy)?input \( \)"
CONDITION = re.compile(rf"(?:\( {READ} \)|(\w+)) ([!=]) = (EOF|0|'.+')")
PLAIN = re.compile(r"(?!return|yyterminate)\w+ \(.*\)")
# What `input()` gives at the end of a text: zero in flex 2.6.4, EOF in older ones.
ENDS = {"0": 0, "EOF": -1}
# The tree of what code reads, the code after that, and whether it reads on without end in flex 2.6.4 if the text ends.
Read = namedtuple("Read", "tree rest is_endless")


class Unclear(Exception):
    """It isn't told what the code reads."""


class Endless(Exception):
    """The code never ends, nor takes another character of the text."""


class Wanted(Exception):
    """The code takes one more character, at this place."""


def following(tokens, at):
    """Where the statement at a place ends."""
    word = tokens[at] if at < len(tokens) else ";"
    if word == "{":
        return closing(tokens, at) + 1
    if word in ("if", "while", "for"):
        end = following(tokens, closing(tokens, at + 1) + 1)
        return following(tokens, end + 1) if word == "if" and tokens[end:end + 1] == ["else"] else end
    while at < len(tokens) and tokens[at] not in (";", "}"):
        at = closing(tokens, at) + 1
    return at + 1


def value(word):
    """The number that a constant is."""
    if word in ENDS:
        return ENDS[word]
    reader = PatternReader(word, 1, {})
    code = reader.character()
    if word[reader.at:] != "'" or code > 127 or word[1:3] in ("\\e", "\\E"):
        raise Unclear
    return code


class Run:
    """A run of code on characters. With an `end` the text ends after them, and this is what each further `input()` gives."""

    def __init__(self, tokens, given, end=None):
        self.tokens, self.given, self.end, self.is_over = tokens, given[::-1], end, False
        # The variable, the character in it, and the one that was put back into the text.
        self.name = self.held = self.back = None
        # From one character to the next, code that ends is at each place at most twice: before and after it puts the character back.
        self.steps = 2 * len(tokens) * (len(given) + 3)

    def block(self, at, end):
        """Runs the statements between two places; gives "break" or "continue" if one leaves a loop by that."""
        word = None
        while at < end and not word:
            word, at = self.statement(at), following(self.tokens, at)
        return word

    def statement(self, at):
        self.steps -= 1
        if self.steps < 0:
            raise Endless
        tokens, body = self.tokens, closing(self.tokens, at + 1) + 1
        if at >= len(tokens):
            raise Unclear
        if tokens[at] == "{":
            return self.block(at + 1, closing(tokens, at))
        if tokens[at] in ("while", "for"):
            while self.holds(at + 1) and self.statement(body) != "break":
                pass
            return None
        if tokens[at] != "if":
            return self.simple(at, " ".join(tokens[at:following(tokens, at) - 1]))
        other = following(tokens, body)
        if self.holds(at + 1):
            return self.statement(body)
        return self.statement(other + 1) if tokens[other:other + 1] == ["else"] else None

    def simple(self, at, text):
        declared, read = re.fullmatch(r"(?:register )?int (\w+)", text), re.fullmatch(READ, text)
        if text in ("break", "continue"):
            return text
        if declared and not self.name:
            self.name = declared[1]
        elif read:
            self.read(at, read[1])
        elif text == f"unput ( {self.name} )" and self.held is not None and self.back is None:
            self.back = self.held & 255
        elif self.name in text.split() or text == "leave" or not COUNT.fullmatch(text) and not self.is_late(text):
            raise Unclear

    def is_late(self, text):
        """Is it a call that finds no more text, and brings none?"""
        return self.is_over and PLAIN.fullmatch(text) and not any(it.search(text) for it in (CUT, STATE, OTHER_TEXT))

    def holds(self, at):
        """Does the condition hold whose parenthesis is at a place?"""
        text = " ".join(self.tokens[at + 1:closing(self.tokens, at)])
        return text in ("1", "; ;") or all(self.compares((at, number), it) for number, it in enumerate(text.split(" & & ")))

    def compares(self, place, text):
        found = CONDITION.fullmatch(text)
        if found and found[1]:
            self.read(place, found[1])
        if not found or (found[1] or found[2]) != self.name or self.held is None:
            raise Unclear
        return (self.held == value(found[4])) == (found[3] == "=")

    def read(self, place, name):
        if name != self.name:
            raise Unclear
        if self.back is not None:
            self.held, self.back = self.back, None
        elif self.given:
            self.held = self.given.pop()
        elif self.end is None:
            raise Wanted(place)
        else:
            self.held, self.is_over = self.end, True


def outcome(code, given, end=None):
    """The place where code takes another character than those given, or how it ends: "done", "endless", or "back" if it puts one back."""
    run = Run(code, given, end)
    try:
        word = run.block(0, len(code))
    except Wanted as found:
        return found.args[0]
    except Endless:
        if run.is_over:
            return "endless"
        raise Unclear from None
    if word:
        raise Unclear
    return "done" if run.back is None else "back"


def automaton(code):
    """For each place, the first one first, the places to which it comes by characters, with their set; and whether it can be endless."""
    constants = frozenset(value(it) for it in code if it == "0" or it[0] == "'" and it[1:])
    sets = [frozenset([it]) for it in constants] + [frozenset(range(256)) - constants]
    first, moves, is_endless = outcome(code, []), {}, False
    if first in ("back", "done"):
        raise Unclear
    paths, queue = {first: []}, [first]
    for place in queue:
        moves[place] = {}
        ends = {end: outcome(code, paths[place], end) for end in ENDS.values()}
        if "back" in ends.values():
            raise Unclear
        is_endless = is_endless or ends[0] == "endless"
        for each in sets:
            path = [*paths[place], max(each)]
            to = outcome(code, path)
            if to != "back":
                moves[place][to] = moves[place].get(to, frozenset()) | each
            if to not in ("back", "done", *paths):
                paths[to] = path
                queue.append(to)
    return moves, is_endless


def tree_of(moves):
    """All that an automaton can read: it may end at each place."""
    ways = {place: {to: ("set", codes) for to, codes in moves[place].items()} for place in moves}
    for own in ways.values():
        own["done"] = one_of(NOTHING, own["done"]) if "done" in own else NOTHING
    # The places are taken out; the first one, which is the last, has all that can be read.
    for place in reversed(list(moves)):
        own = ways.pop(place)
        around = [("times", own.pop(place), 0, None)] if place in own else []
        for other in ways.values():
            if place in other:
                first = other.pop(place)
                for to, tree in own.items():
                    tree = in_series(first, *around, tree)
                    other[to] = one_of(other[to], tree) if to in other else tree
    return in_series(*around, own["done"])


def read_by(tokens):
    """What an action reads by itself; None if it reads nothing, or it isn't told what, as with directives."""
    code, at = [], len(tokens) if "#" in tokens else 0
    while CALLS.intersection(tokens[at:]):
        # The braces around the code make no difference.
        end = at + 1 if tokens[at] in ("{", "}") else following(tokens, at)
        code += tokens[at:end] if tokens[at] not in ("{", "}") else []
        at = end
    try:
        moves, is_endless = automaton(code)
    except Unclear:
        return None
    return Read(tree_of(moves), " ".join(tokens[at:]), is_endless)
