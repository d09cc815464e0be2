r"""Patterns of flex, read as sets of bytes and written as sets of characters.

A tree is ("set", bytes), ("series", trees), ("either", trees), ("times", tree, low, high), ("part", name, tree) of a definition `{name}`,
or ("characters", ranges) of characters that aren't ASCII.

>>> def shown(text, **definitions):
...     parts = {}
...     return said(PatternReader(text, 0, definitions).whole(), parts), parts
>>> print(shown(r'[[:alpha:]_]+\b"a.b"*|(?i:k)a+?')[0])
/[A-Z_a-z]+\x{8}(?:a\.b)*|[Kk](?:a+)?/
>>> print(shown("{D}+", D="[^0-9]")[0], shown("{D}+", D="[^0-9]")[1]["D"])
/{D}+/ [^0-9]
>>> print(shown(r"[\xC2-\xDF][\x80-\xBF]|\xE2\x82\xAC")[0], shown('"/*\\n"')[0], shown(r"[_\x80-\xff][^\x80-\xff]")[0])
/[\x{80}-\x{7ff}]|€/ "/*\n" /[_\x{80}-\x{10ffff}][\x{0}-\x{7f}]/
>>> shown(r"a[\x80-\x8f]")
Traceback (most recent call last):
bajofeki_import.flex_patterns.Unsayable: bytes that are no characters of UTF-8
"""
import re
import string
from itertools import product

from .rules import character, escaped, identifier

ESCAPES = {"n": 10, "t": 9, "r": 13, "f": 12, "v": 11, "a": 7, "b": 8}
CLASSES = {"alpha": string.ascii_letters, "digit": string.digits, "upper": string.ascii_uppercase, "lower": string.ascii_lowercase,
           "alnum": string.ascii_letters + string.digits, "xdigit": string.hexdigits, "punct": string.punctuation, "blank": " \t",
           "space": string.whitespace, "cntrl": "".join(map(chr, range(32))) + "\x7f"}
CLASSES["graph"] = CLASSES["alnum"] + CLASSES["punct"]
CLASSES["print"] = CLASSES["graph"] + " "
COUNTS = {"*": (0, None), "+": (1, None), "?": (0, 1)}
HIGH = frozenset(range(128, 256))
MORE = frozenset(range(0x80, 0xC0))
NOTHING = "series", []  # the tree of the empty text


class Unsayable(Exception):
    """Why no pattern says the same."""


class Reader:
    """A text, and a place to which it is read."""

    def __init__(self, text, at=0):
        self.text, self.at = text, at

    def take(self, pattern):
        found = re.compile(pattern).match(self.text, self.at)
        self.at = found.end() if found else self.at
        return found


class PatternReader(Reader):
    """Reads a pattern at a place of a text whose characters are bytes; `left` is the reason if a rule can't say what surrounds it."""

    def __init__(self, text, at, definitions, flags=frozenset(), size=256):
        super().__init__(text, at)
        self.definitions, self.flags, self.all, self.left = definitions, flags, frozenset(range(size)), None

    def whole(self, flags=frozenset()):
        """The tree up to white space that isn't quoted."""
        if self.take(r"\^"):
            self.left = "^ asks for the beginning of a line"
        tree = self.either(flags)
        if self.take("/"):
            self.left = "its trailing context isn't part of the match"
            self.either(flags)
        if self.take(r"\$"):
            self.left = "$ asks for the end of a line"
        return self.must(r"(?=\s)|\Z") and tree

    def must(self, pattern):
        found = self.take(pattern)
        if not found:
            raise ValueError(f"no pattern of flex: {self.text[self.at:].splitlines()[:1]}")
        return found

    def either(self, flags):
        trees = [self.series(flags)]
        while self.take(r"\|"):
            trees.append(self.series(flags))
        if all(it[0] == "set" for it in trees):
            return "set", frozenset().union(*(it[1] for it in trees))
        return ("either", trees) if trees[1:] else trees[0]

    def series(self, flags):
        trees = []
        while not self.take(r"(?=[|)/]|\$?(\s|\Z))") or "x" in flags and self.take(r"\s+|/\*(?s:.*?)\*/"):
            count = self.take(r"[*+?]|\{(\d+)(,?)(\d*)\}") if trees else None
            if count:
                low, high = count[1], count[3] or (None if count[2] else count[1])
                trees[-1] = ("times", trees[-1], *(COUNTS.get(count[0]) or (int(low), high and int(high))))
            elif not self.take(r"\(\?#[^)]*\)|(?=[|)/]|\$?(\s|\Z))"):
                trees.append(self.atom(flags))
        return trees[0] if len(trees) == 1 else ("series", trees)

    def atom(self, flags):
        if group := self.take(r"\((?:\?([isx]*)(?:-([isx]+))?:)?"):
            tree = self.either(flags.union(group[1] or "").difference(group[2] or ""))
            return self.must(r"\)") and tree
        if name := self.take(r"\{([A-Za-z_][\w-]*)\}"):
            return self.part(name[1], flags)
        if self.take('"'):
            trees = []
            while not self.take('"|(?=\n)'):
                trees.append(("set", folded(self.character(), flags)))
            return trees[0] if len(trees) == 1 else ("series", trees)
        if self.take(r"\."):
            return "set", self.all if "s" in flags else self.all - {10}
        if not self.take(r"(?=\[)"):
            return "set", folded(self.character(), flags)
        found = self.bracket(flags)
        while operator := self.take(r"\{([-+])\}(?=\[)"):
            found = found | self.bracket(flags) if operator[1] == "+" else found - self.bracket(flags)
        return "set", found

    def part(self, name, flags):
        if name not in self.definitions:
            raise ValueError(f"no definition of {{{name}}}")
        inner = PatternReader(self.definitions[name], 0, self.definitions, self.flags, len(self.all))
        tree = inner.whole(flags)
        self.left = self.left or inner.left
        return ("part", name, tree) if flags == self.flags else tree

    def character(self):
        octal, hexadecimal, name, plain = self.must(r"\\(?:([0-7]{1,3})|x([0-9A-Fa-f]{1,2})|((?s:.)))|((?s:.))").groups()
        if octal or hexadecimal:
            return int(octal or hexadecimal, 8 if octal else 16) & 255
        return ord(plain) if plain else ESCAPES.get(name, ord(name))

    def bracket(self, flags):
        is_negated, found, is_first = self.take(r"\[(\^?)")[1], set(), True
        while is_first or not self.take(r"\]"):
            is_first, name = False, self.take(rf"\[:(\^?)({'|'.join(CLASSES)}):\]")
            if name:
                found |= self.named(name[1], name[2], flags)
                continue
            low = self.character()
            high = self.character() if self.take(r"-(?=[^\]\n])") else low
            for first, last in ((low, high), *zip(folded(low, flags) - {low}, folded(high, flags) - {high})):
                found.update(range(first, last + 1))
        return self.all - found if is_negated else frozenset(found)

    def named(self, is_negated, name, flags):
        """A named class; flex takes the cases of letters together, and ignores such a complement."""
        has_case = "i" in flags and name in ("upper", "lower")
        found = frozenset(map(ord, CLASSES["alpha" if has_case else name]))
        return found if not is_negated else frozenset() if has_case else self.all - found


def folded(code, flags):
    """A character in the cases that flex means: those of ASCII."""
    return frozenset({code, ord(chr(code).swapcase())} if "i" in flags and chr(code).isalpha() and code < 128 else {code})


def runs(codes):
    """The ranges of which a set is made.

    >>> runs({1, 2, 3, 7})
    [(1, 3), (7, 7)]
    """
    starts, ends = sorted(it for it in codes if it - 1 not in codes), sorted(it for it in codes if it + 1 not in codes)
    return list(zip(starts, ends))


def bracket_of(ranges, start="["):
    if start == "[" and len(ranges) == 1 and ranges[0][0] == ranges[0][1]:
        return character(ranges[0][0])
    return start + "".join(("-" if high > low + 1 else "").join(map(character, sorted({low, high}))) for low, high in ranges) + "]"


def said_set(codes):
    """The pattern of a set of bytes, of which all or none that aren't ASCII belong to it: it has all or none of those characters."""
    high = codes & HIGH
    if not codes or high and high != HIGH:
        raise Unsayable("bytes that are no characters of UTF-8" if codes else "an empty class")
    lacks = frozenset(range(128)) - codes
    if high and lacks <= {10}:
        return "." if lacks else "(?s:.)"
    return bracket_of(runs(lacks), "[^") if high and len(lacks) < 64 else bracket_of(runs(codes - HIGH) + [(128, 0x10FFFF)] * bool(high))


def is_nullable(tree):
    """Does it match the empty text?"""
    if tree[0] in ("series", "either"):
        return (all if tree[0] == "series" else any)(map(is_nullable, tree[1]))
    return tree[0] == "times" and tree[2] == 0 or tree[0] in ("times", "part") and is_nullable(tree[1 if tree[0] == "times" else 2])


def in_series(*trees):
    trees = [it for it in trees if it != NOTHING]
    return trees[0] if len(trees) == 1 else ("series", trees)


def one_of(tree, other):
    if tree[0] == other[0] == "set":
        return "set", tree[1] | other[1]
    return ("times", other, 0, 1) if tree == NOTHING else ("either", [tree, other])


def rests(tree, codes):
    r"""Trees of what follows a byte of a set in the texts of a tree.

    >>> tree = PatternReader("(a+b?){2}c", 0, {}).whole()
    >>> [f"/{pattern_of(it, {})}/" for it in rests(tree, {ord("a")})]
    ['/a*b?(?:a+b?){1}c/']
    >>> any(is_nullable(it) for it in rests(tree, {ord("b")})), rests(tree, set(b"bc"))
    (False, [])
    """
    if tree[0] == "set":
        return [NOTHING] * (not tree[1].isdisjoint(codes))
    if tree[0] == "part":
        return rests(tree[2], codes)
    if tree[0] == "either":
        return [it for each in tree[1] for it in rests(each, codes)]
    if tree[0] == "times":
        fewer = "times", tree[1], max(tree[2] - 1, 0), tree[3] and tree[3] - 1
        return [in_series(it, fewer) for it in rests(tree[1], codes)] if tree[3] != 0 else []
    found, trees = [], tree[1]
    for number, first in enumerate(trees):
        found += [in_series(it, *trees[number + 1:]) for it in rests(first, codes)]
        if not is_nullable(first):
            break
    return found


def is_partial(tree):
    """Is it a set of some bytes that aren't ASCII?"""
    return tree[0] == "set" and not HIGH <= tree[1] and not HIGH.isdisjoint(tree[1])


def flat(tree):
    """The trees of a series, sets of bytes out of their parts and counts."""
    if tree[0] == "series":
        return [it for each in tree[1] for it in flat(each)]
    if tree[0] == "times" and tree[2] == tree[3] and all(map(is_partial, flat(tree[1]))):
        return flat(tree[1]) * tree[2]
    return flat(tree[2]) if tree[0] == "part" and all(map(is_partial, flat(tree[2]))) else [tree]


def decoded(trees):
    """A series with characters for their bytes; sequences that UTF-8 doesn't have match nothing in it."""
    found = []
    while trees:
        tree, *trees = trees
        if is_partial(tree):
            sizes = {(it >= 0xC0) + (it >= 0xE0) + (it >= 0xF0) for it in tree[1]}
            rest, trees = trees[:max(sizes)], trees[max(sizes):]
            is_whole = {len(rest)} == sizes != {0} and all(it[0] == "set" and it[1] <= MORE for it in rest)
            sequences = product(tree[1], *(it[1] for it in rest)) if is_whole else []
            tree = "characters", runs({ord(it) for each in sequences for it in bytes(each).decode(errors="ignore")})
            if not tree[1]:
                raise Unsayable("bytes that are no characters of UTF-8")
        found.append(tree)
    return found


def pattern_of(tree, parts, level=0):
    """The pattern; below level 1 it may have branches, below 2 be a series, below 3 be repeated. `parts` gets those it names."""
    if tree[0] == "characters":
        return bracket_of(tree[1])
    if tree[0] == "set":
        return said_set(tree[1])
    if tree[0] == "part":
        name = identifier(tree[1])
        # The parts in it come before it.
        parts[name] = parts[name] if name in parts else pattern_of(tree[2], parts)
        return f"{{{name}}}"
    if tree[0] == "either":
        own, text = 0, "|".join(pattern_of(it, parts, 1) for it in tree[1])
    elif tree[0] == "times":
        count = {(0, None): "*", (1, None): "+", (0, 1): "?"}.get(tree[2:])
        ends = "" if tree[3] == tree[2] else "," if tree[3] is None else f",{tree[3]}"
        own, text = 2, pattern_of(tree[1], parts, 3) + (count or f"{{{tree[2]}{ends}}}")
    else:
        trees = decoded(flat(tree))
        if len(trees) == 1:
            return pattern_of(trees[0], parts, level)
        own, text = 1, "".join(pattern_of(it, parts, 2) for it in trees)
    return text if own >= level and text else f"(?:{text})"


def said(tree, parts):
    """The text of a rule: a literal where it is one."""
    trees = decoded(flat(tree))
    ranges = [it[1] if it[0] == "characters" else runs(it[1]) if it[0] == "set" else [] for it in trees]
    if trees and all(len(it) == 1 == len(set(it[0])) for it in ranges):
        return escaped("".join(chr(it[0][0]) for it in ranges))
    return f"/{pattern_of(tree, parts)}/"
