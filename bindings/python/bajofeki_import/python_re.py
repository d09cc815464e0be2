r"""Patterns of Python's `re` as texts of rules, by their trees. Characters are of the Unicode that the rules' lexer knows; in any case `\w`
has one more, U+0345, which folds to a letter.

>>> print(*(text_of(re.compile(it, re.M)) for it in (r"//.*?$|\s+", "<.*?>", r"/[*](.|\n)*?[*]/")))
///.*|[\s\x1c-\x1f]+/ /<[[^\n]--[>]]*>/ from '/*' to '*/'
"""
import functools
import re

from .rules import character

try:
    from re import _constants as codes, _parser as parser
except ImportError:  # before Python 3.11
    import sre_constants as codes
    import sre_parse as parser


class Unsaid(Exception):
    """Why something can't be said."""


ENDLESS, REPEATS, LOOKS_AHEAD = codes.MAXREPEAT, (codes.MIN_REPEAT, codes.MAX_REPEAT), (codes.ASSERT, codes.ASSERT_NOT)
SET = "SET"  # an item of our own: a bracket
LOOKS, BACK = "it looks at the text around it", "it depends on a group"
REASONS = {"MIN_REPEAT": "it takes the shortest match", "GROUPREF": BACK, "GROUPREF_EXISTS": BACK}
REASONS.update(dict.fromkeys(["POSSESSIVE_REPEAT", "ATOMIC_GROUP"], "it never gives back"))
# What stands in brackets. Python's white space has four separators more than Unicode's; its words are letters, numbers and `_`.
CLASSES = {"DIGIT": r"\d", "SPACE": r"\s\x1c-\x1f", "WORD": r"\pL\pN_"}
ASCII_CLASSES = {"DIGIT": "0-9", "SPACE": r"\t-\r ", "WORD": "0-9A-Za-z_"}
ANY, LINE = r"\x{0}-\x{10ffff}", r"[^\n]"
ALL = {ANY, LINE + r"\n", r"\n" + LINE, *(f"{it}[^{it}]" for it in CLASSES.values()), *(f"[^{it}]{it}" for it in CLASSES.values())}
MOST = 10000  # words of a pattern that ends with a look


def span(low, high, flags):
    """A range in brackets; empty, if no text has one of it. In any case Python takes two letters more for an `i` than Unicode's folding.

    >>> span(ord("a"), ord("z"), re.I), span(ord("i"), ord("i"), re.I), span(ord("i"), ord("i"), 0)
    ('a-ziİı', 'iİı', 'i')
    """
    low, high = 0xE000 if 0xD800 <= low < 0xE000 else low, 0xD7FF if 0xD800 <= high < 0xE000 else high
    text = "" if low > high else character(low) if low == high else f"{character(low)}-{character(high)}"
    is_i = flags & re.I and any(low <= ord(it) <= high for it in "iIİı")
    return (text * (low != high) + "iİı") if is_i else text


def inside(op, value, flags):
    """What stands in brackets for a set of characters; None if it's something else."""
    text, is_not = value if op == SET else None, op is codes.NOT_LITERAL
    if op is codes.ANY:
        text = ANY if flags & re.S else LINE
    elif op in (codes.LITERAL, codes.NOT_LITERAL, codes.RANGE):
        text = span(*(value if op is codes.RANGE else (value, value)), flags)
    elif op is codes.CATEGORY:
        text, is_not = (ASCII_CLASSES if flags & re.A else CLASSES)[str(value).split("_")[-1]], "_NOT_" in str(value)
    elif op is codes.IN:
        is_not = value[0][0] is codes.NEGATE
        text = "".join(inside(*it, flags) for it in value[is_not:])
    elif op is codes.BRANCH:
        parts = [one_set(branch, flags) for branch in value[1]]
        text = None if None in parts else "".join(parts)
    return f"[^{text}]" if is_not else text


def one_set(items, flags):
    """What stands in brackets for items that are one set of characters; None if they are something else."""
    items = flat(items)
    return inside(*items[0], flags) if len(items) == 1 else None


def bracket(text):
    r"""A set from what stands in brackets.

    >>> print(*map(bracket, [r"\[", "[^a]", "a-z", r"\d", "[^a][^b]", "[^a]a", r"[^[^\s]\n]"]))
    \[ [^a] [a-z] \d [[^a][^b]] [[^a]a] [^[^\s]\n]
    """
    if not text:
        raise Unsaid("no text has such a character")
    if text == LINE or text in ALL:
        return "." if text == LINE else "(?s:.)"
    one = r"\[\^(?:\\.|[^][\\]|\[(?:\\.|[^][\\])+\])+\]|\\[^pPx]|\\x\{\w+\}|[^\\]"
    return text if re.fullmatch(one, text, re.S) else f"[{text}]"


def flat(items):
    """The items of a sequence, with those of plain groups in their place."""
    groups = ((flat(value[3]) if op is codes.SUBPATTERN and not (value[1] or value[2]) else [(op, value)]) for op, value in items)
    return [it for group in groups for it in group]


def sequence(items, flags, is_last=False):
    """A pattern of these items, one after another; `is_last` if nothing follows them."""
    items, text = flat(items), ""
    for at, (op, value) in enumerate(items):
        rest = items[at + 1 :]
        if op in LOOKS_AHEAD:
            sign = "--" if op is codes.ASSERT_NOT else "&&"
            return text + sequence(narrowed(rest, sign, one_ahead(op, value, flags), flags), flags, is_last)
        up_to = repeated_up_to(op, *value, rest, flags) if is_last and op in REPEATS else None
        if up_to is not None:
            return text + up_to
        text += item(op, value, flags, is_last and not rest)
    return text


def one_ahead(op, value, flags):
    """What stands in brackets for the next character, if it's all that this looks at."""
    text = one_set(value[1], flags) if op in LOOKS_AHEAD and value[0] == 1 else None
    if not text:
        raise Unsaid(LOOKS)
    return text


def narrowed(items, sign, text, flags):
    r"""These items, where the first character is in a set too, or isn't: the sign says which.

    >>> print(text_of(re.compile(r"(?!\d)(\w|%u)+")))
    /([\pL\pN_--[\d]]|[%--[\d]]u)([\pL\pN_]|%u)*/
    """
    (op, value), *rest = items or [(None, None)]
    first = inside(op, value, flags)
    if first:
        return [(SET, f"[{first}{sign}[{text}]]"), *rest]
    if op is codes.BRANCH:
        return [(op, (None, [narrowed(flat(it), sign, text, flags) for it in value[1]])), *rest]
    if op is codes.MAX_REPEAT and value[0] > 0:
        least, most, inner = value
        again = (op, (least - 1, most if most == ENDLESS else most - 1, inner))
        return [*narrowed(flat(inner), sign, text, flags), *[again] * (most > 1), *rest]
    raise Unsaid(LOOKS)


def repeated_up_to(op, least, most, inner, rest, flags):
    """A repetition and all that follows it, where this is the shortest match or the rest of a line; else None."""
    if op is codes.MIN_REPEAT and not rest:
        return repeated(least, least, inner, flags)
    each = one_set(inner, flags)
    if each is None or most != ENDLESS or not rest:
        return None
    few, end = bracket(each) * least, inside(*rest[0], flags)
    if (each == LINE or each in ALL and op is codes.MIN_REPEAT) and rest == [(codes.AT, codes.AT_END)] and flags & re.M:
        return few + ".*"
    if op is codes.MIN_REPEAT and end and all(op is codes.MAX_REPEAT and value[0] == 0 for op, value in rest[1:]):
        others = LINE if each == LINE and end == r"\n" else f"[^{end}]" if each in ALL else f"{each}--[{end}]"
        return f"{few}{bracket(others)}*{bracket(end)}{sequence(rest[1:], flags, True)}"
    return None


def item(op, value, flags, is_last=False):
    """A pattern of one item."""
    text = inside(op, value, flags)
    if text is not None:
        return text if op == SET else bracket(text)
    if op is codes.MAX_REPEAT:
        return repeated(*value, flags)
    if op is codes.BRANCH:
        return f"({'|'.join(sequence(it, flags, is_last) for it in value[1])})"
    if op is codes.SUBPATTERN:
        _, on, off, items = value
        signs = f"{'i' * bool(on & re.I)}{'-i' * bool(off & re.I)}"
        return f"({signs and f'?{signs}:'}{sequence(items, flags & ~off | on, is_last)})"
    raise Unsaid(REASONS.get(str(op), LOOKS))


def repeated(least, most, items, flags):
    items = flat(items)
    text = sequence(items, flags)
    if len(items) != 1 or items[0][0] in REPEATS:
        text = f"({text})"
    signs = {(0, 1): "?", (0, ENDLESS): "*", (1, ENDLESS): "+", (1, 1): ""}
    many = "" if most == ENDLESS else most
    return text + signs.get((least, most), f"{{{least}}}" if least == most else f"{{{least},{many}}}")


def literal(items, flags):
    """The text of items that are characters without case; empty, if they aren't, or no quotes can hold it."""
    text = "".join(chr(value) if op is codes.LITERAL else "\n" for op, value in items)
    return text if text.isascii() and text.isprintable() and "'" not in text and (not flags & re.I or text.lower() == text.upper()) else ""


def from_to(items, flags):
    """A text from one literal up to the first other one after it; None if the items say something else."""
    at = [op for op, _ in items].index(codes.MIN_REPEAT) if codes.MIN_REPEAT in dict(items) else 0
    start, end = literal(items[:at], flags), literal(items[at + 1 :], flags)
    is_any = start and end and len(end) <= 64 and items[at][1][:2] == (0, ENDLESS) and one_set(items[at][1][2], flags) in ALL
    return f"from '{start}' to '{end}'" if is_any else None


@functools.lru_cache(maxsize=None)
def text_of(compiled, without_end=False):
    """What a rule says for a compiled pattern, or for the pattern without its last item."""
    tree = parser.parse(compiled.pattern, compiled.flags)
    flags, items = tree.state.flags, flat(tree)[: -1 if without_end else None]
    branches = items[0][1][1] if len(items) == 1 and items[0][0] is codes.BRANCH and one_set(items, flags) is None else [items]
    return from_to(items, flags) or slashed("|".join(sequence(it, flags, True) for it in branches), flags)


def slashed(text, flags):
    r"""A pattern as the text of a rule.

    >>> print(slashed(r"\s+[\x1c_]", re.I), slashed("a", re.I), slashed("a", 0))
    /\s+[\x1c_]/ /(?i:a)/ /a/
    """
    plain = re.sub(r"\\(x\{\w+\}|x\w\w|.)", "", text)
    return f"/(?i:{text})/" if flags & re.I and plain.lower() != plain.upper() else f"/{text}/"


def words(items):
    """The texts that items match, if they are few.

    >>> words(parser.parse("i[fn]|(do)?x"))
    ['if', 'in', 'x', 'dox']
    """
    texts = [""]
    for op, value in flat(items):
        if op is codes.LITERAL:
            more = [chr(value)]
        elif op is codes.RANGE and value[1] - value[0] < MOST:
            more = [chr(it) for it in range(value[0], value[1] + 1)]
        elif op is codes.IN or op is codes.BRANCH:
            more = [word for it in (value[1] if op is codes.BRANCH else value) for word in words(it if op is codes.BRANCH else [it])]
        elif op is codes.MAX_REPEAT and value[1] == 1:
            more = [""] * (value[0] == 0) + words(value[2])
        else:
            raise Unsaid(LOOKS)
        texts = [text + it for text in texts for it in more]
        if len(texts) > MOST:
            raise Unsaid(LOOKS)
    return texts


@functools.lru_cache(maxsize=None)
def open_words(compiled):
    """The words of a pattern that ends with a look at one character; of each the texts, a character longer at most, where that fails."""
    tree = parser.parse(compiled.pattern, compiled.flags)
    flags, (*items, (op, value)) = tree.state.flags, flat(tree)
    if not (op is codes.AT and (value is codes.AT_BOUNDARY or value is codes.AT_END and flags & re.M)):
        one_ahead(op, value, flags)
    ends = ["", *map(chr, range(128))]
    return {word: [word + it for it in ends if not reaches(compiled, word + it, len(word))] for word in words(items)}


def reaches(compiled, text, end):
    found = compiled.match(text)
    return bool(found) and found.end() >= end


@functools.lru_cache(maxsize=None)
def outdone(compiled, other):
    """The words of `open_words` of which another pattern matches more wherever the look fails."""
    return {word for word, texts in open_words(compiled).items() if all(reaches(other, it, len(word) + 1) for it in texts)}


def text_without_look(compiled, others):
    r"""What a rule says without the look at one character that ends it: its words of which others match more where it fails, whichever
    character of ASCII comes. Gives the words that are left, too.

    >>> print(*text_without_look(re.compile(r"(if|in|if not)\b"), [re.compile(r"\w+")]))
    /if|in/ ['if not']
    """
    said = set().union(*(outdone(compiled, it) for it in others if it.flags & re.I == compiled.flags & re.I))
    if not said:
        raise Unsaid(LOOKS)
    left = [it for it in open_words(compiled) if it not in said]
    text = "|".join("".join(character(ord(it)) for it in word) for word in open_words(compiled) if word in said)
    return slashed(text, compiled.flags) if left else text_of(compiled, True), left
