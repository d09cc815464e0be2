#!/usr/bin/env python3
"""Cuts texts into tokens, as the program `tokens` does, but with Python's `re`. The expected output of the examples was
made with it:

    cd examples/c && ../tokens.py $(cat args) > stdout

Usage: tokens.py RULES FILE ...

RULES is a file of rules, as docs/PROGRAMS.md has it: rules, parts, sections, blank lines and comments. At each place the longest
match wins; among rules with a match of that length, the one with the greatest precedence. A token is a line
`LINE:COLUMN NAME "SLICE"`, begun by `FILE:` if there are several files, and skipped ones are left out. Where no rule matches, the
file is cut no further, and the exit status is 1; so it is where a text ends in a deeper mode."""
import functools
import re
import sys
import unicodedata
import warnings
from pathlib import Path

# Where `re` would silently read a bracket in another way, as in [[:alpha:]] or [a-z&&b], it warns. Make that an error.
warnings.simplefilter("error", FutureWarning)

ESCAPES = {'"': '\\"', "\\": "\\\\", "\n": "\\n", "\r": "\\r", "\t": "\\t"}

# Characters that aren't seen: control characters, the separators of lines and paragraphs, those of Default_Ignorable_Code_Point, which `re`
# doesn't have: soft hyphens, joiners, fillers, marks of direction, tags and variation selectors; and those that Unicode hasn't assigned.
UNSEEN = re.compile(
    "[\x00-\x1f\x7f-\x9f\u2028\u2029"
    "\xad\u034f\u061c\u115f\u1160\u17b4\u17b5\u180b-\u180f\u200b-\u200f\u202a-\u202e\u2060-\u206f\u3164\ufe00-\ufe0f\ufeff\uffa0\ufff0-\ufff8"
    "\U0001bca0-\U0001bca3\U0001d173-\U0001d17a\U000e0000-\U000e0fff]"
)

# An identifier in Python is an underscore or a character of XID_Start, and then characters of XID_Continue. The others are categories.
PROPERTIES = {
    "XID_Start": lambda c: c.isidentifier() and c != "_",
    "XID_Continue": lambda c: ("_" + c).isidentifier(),
    "L": lambda c: unicodedata.category(c)[0] == "L",
    "Nd": lambda c: unicodedata.category(c) == "Nd",
    "Sc": lambda c: unicodedata.category(c) == "Sc",
}


@functools.cache
def property_class(name):
    """The class of the characters with a Unicode property, which `re` doesn't have."""
    ranges = []
    for code in range(sys.maxunicode + 1):
        if PROPERTIES[name](chr(code)):
            if ranges and ranges[-1][1] == code - 1:
                ranges[-1][1] = code
            else:
                ranges.append([code, code])
    return "[" + "".join(f"\\U{first:08x}-\\U{last:08x}" for first, last in ranges) + "]"


def translated(pattern):
    """The pattern in Python's syntax. It differs in [[:ascii:]&&[...]], \\p{NAME} outside brackets, and \\x{NUMBER}."""

    def escape(it):
        if it["name"]:
            return property_class(it["name"])
        return f"\\U{int(it['number'], 16):08x}" if it["number"] else it[0]

    pattern = re.sub(r"\[\[:ascii:\]&&(\[(?:[^\]\\]|\\.)+\])\]", r"(?:(?=[\\x00-\\x7f])\1)", pattern)
    return re.sub(r"\\(?:p\{(?P<name>\w+)\}|x\{(?P<number>\w+)\}|.)", escape, pattern)


SECTION = re.compile(r"[ \t]*\[[ \t]*(\*|\w+(?:[ \t]+\w+)*)[ \t]*\][ \t]*", re.ASCII)
RULE = re.compile(r"[ \t]*([A-Za-z_]\w*)([ \t]+skip)?((?:[ \t]+(?:pop|(?:mode|push)[ \t]+\w+))*)[ \t]*=[ \t]*([0-9]+)?[ \t]*(.*?)[ \t]*", re.ASCII)
PART = re.compile(r"[ \t]*([A-Za-z_]\w*)[ \t]+part[ \t]*=[ \t]*/(.*)/[ \t]*", re.ASCII)
TEXT = re.compile(
    r"'(?P<literal>.*)'|\"(?P<escaped>.*)\"|anycase[ \t]*'(?P<cased>.*)'|/(?P<pattern>.*)/"
    r"|from[ \t]+'(?P<start>.*?)'[ \t]+to[ \t]*'(?P<end>.+)'"
)


def unescaped(text):
    """The text with characters for its escapes, of which the examples have these."""
    return re.sub(r"\\(?:u\{(\w+)\}|([ntr])|(.))", lambda it: chr(int(it[1], 16)) if it[1] else {"n": "\n", "t": "\t", "r": "\r"}.get(it[2], it[3]), text)


def with_parts(pattern, parts):
    """The pattern in Python's syntax. The examples have no `{NAME}` in brackets."""
    return re.sub(r"\{([A-Za-z_]\w*)\}", lambda it: f"(?:{parts[it[1]]})" if it[1] in parts else it[0], translated(pattern))


def pattern_of(text, parts):
    """The pattern of a rule's text in Python's syntax, and its precedence where none is written."""
    it = TEXT.fullmatch(text)
    if it["literal"] is not None:
        return re.escape(it["literal"]), 1
    if it["escaped"] is not None:
        return re.escape(unescaped(it["escaped"])), 1
    if it["cased"] is not None:
        return f"(?i:{re.escape(it['cased'])})", 1
    if it["pattern"] is not None:
        return with_parts(it["pattern"], parts), 0
    start, end = re.escape(it["start"]), re.escape(it["end"])
    return f"{start}(?s:(?!{end}).)*{end}", 0


def rules_of(rules):
    """Each rule: its name, whether it is skipped, its actions, precedence and pattern, and its modes; and the modes of the file."""
    found, parts, modes, here = [], {}, [], ["INITIAL"]
    for line in rules.split("\n"):
        if section := SECTION.fullmatch(line):
            here = section[1].split()
            modes += [mode for mode in here if mode not in [*modes, "*"]]
        elif part := PART.fullmatch(line):
            parts[part[1]] = with_parts(part[2], parts)
        elif not re.fullmatch(r"[ \t]*(#.*)?", line):
            name, skip, words, precedence, text = RULE.fullmatch(line).groups()
            pattern, usual = pattern_of(text, parts)
            modes = modes or here[:]
            actions = re.findall(r"(pop)|(mode|push)[ \t]+(\w+)", words)
            found.append((name, bool(skip), actions, int(precedence or usual), pattern, here))
    return found, modes


@functools.cache
def at_least(pattern, length):
    """The pattern, if it matches at least `length` characters: the look-behind needs so many before the match's end."""
    return re.compile(f"(?:{pattern})(?<=(?s:.){{{length}}})")


def longest(pattern, rest):
    """The length in characters of the longest nonempty match at the start of `rest`, or 0.

    `re` returns the first match that it finds, which need not be the longest. So ask for a longer one until there is
    none. The last one is the longest, because `re` tries every way to match before it gives up."""
    length = 0
    while found := at_least(pattern, length + 1).match(rest):
        length = found.end()
    return length


def token_at(rules, rest):
    """The index of the strongest of the rules with the longest match at the start of `rest`, and the match; None without a match."""
    matches = [(longest(pattern, rest), precedence) for precedence, pattern in rules]
    best = max(matches)
    if best[0] == 0:
        return None
    if matches.count(best) > 1:
        raise ValueError(f"two rules tie on {rest[:best[0]]!r}")
    return matches.index(best), rest[: best[0]]


def cut(rules, modes, text):
    """The name of each token, or None if it is skipped, and its slice, up to the first place where no rule of the mode on top
    matches; and the stack of modes there, whose last is on top."""
    tokens, at, stack = [], 0, modes[:1]
    while at < len(text):
        own = [rule for rule in rules if rule[5] == ["*"] or stack[-1] in rule[5]]
        if not (found := token_at([rule[3:5] for rule in own], text[at:])):
            break
        name, is_skipped, actions, *_ = own[found[0]]
        tokens.append((None if is_skipped else name, found[1]))
        at += len(found[1])
        for pop, word, mode in actions:
            if word == "push":
                stack.append(mode)
            elif word:
                stack[-1] = mode
            elif len(stack) > 1:
                stack.pop()
    return tokens, stack


def quoted(token):
    def shown(c):
        is_unseen = UNSEEN.match(c) or unicodedata.category(c) == "Cn"
        return ESCAPES.get(c) or (f"\\u{{{ord(c):x}}}" if is_unseen else c)

    return '"' + "".join(map(shown, token)) + '"'


def place_after(before):
    return f"{before.count(chr(10)) + 1}:{len(before) - (before.rfind(chr(10)) + 1) + 1}"


def main(rules_file, *files):
    rules, modes = rules_of(Path(rules_file).read_bytes().decode("utf-8-sig"))
    status = 0
    for file in files:
        text, before = Path(file).read_bytes().decode(), ""
        tokens, stack = cut(rules, modes, text)
        for name, token in tokens:
            if name:
                print(f"{file + ':' if len(files) > 1 else ''}{place_after(before)} {name} {quoted(token)}")
            before += token
        status |= before != text or len(stack) > 1
    return status


if __name__ == "__main__":
    sys.stdout.reconfigure(encoding="utf-8", newline="\n")
    sys.exit(main(*sys.argv[1:]))
