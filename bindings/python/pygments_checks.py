r"""Rules made of Pygments lexers cut texts as these do, and those of random patterns match what Python's `re` matches.

>>> for seed in range(200):
...     check_pattern(random.Random(seed))
>>> rules = rules_of(f"{__name__}:Sample")
>>> print(*re.findall("^# .*left out: (.*)", rules.text(), re.M), *re.findall(r"\[head_in_root\]|.*push text", rules.text()), sep="\n")
/let in/ ('head',): it looks at the text around it
/^=+/: it looks at the text around it
Literal_String push text push text
[head_in_root]
Literal_String pop push text push text
>>> rules_of("pygments.lexers.capnproto:CapnProtoLexer").left  # in `parenexp` two states end without a character, or more
6
>>> check_lexer(f"{__name__}:Sample", TEXT)
>>> for name, text in TEXTS.items():
...     check_lexer(f"pygments.lexers.{name}", text)
"""
import importlib
import random
import re

from pygments.lexer import RegexLexer, bygroups, combined, default, include, words
from pygments.token import Comment, Keyword, Name, Number, Punctuation, String, Whitespace

from bajofeki import Kind, Lexer
from bajofeki_import.pygments import rules_of
from bajofeki_import.python_re import Unsaid, text_of

ATOMS = r"a i . \w \d \s \W \D \S [a-z] [^a-k] [\w-] [^\s_] [İ-ſ] [^İ] [].[^&~|-] ß \. (?![ab])\w (?=[^i])[a-z] (?i:i) (?-i:s)".split()
ALPHABET = "aabkKiIİısSſ\u212a0_-. \x1c\x85\n\r\u2028ßé²٣&~[]"
TEXT = 'let go in "a\\n"  intro 12px 3 inn /* a\n*/ 4 ( # b\n\t)let (\x1c)in/**/f'
TEXTS = {
    "html:XmlLexer": '<?xml version="1.0"?>\n<!-- a - b -->\n<a b="1"\n c=\'d\'><![CDATA[<x>]]>&lt;e<f/></a >\n',
    "capnproto:CapnProtoLexer": "@0xdb;\nstruct A { # b\n c @0 :Text = \"d\";\n e :List(Int8) $f(1);\n}\n",
    "verification:BoogieLexer": "var x: int; // a\nprocedure P() requires intx >= 12; /* b\n*/ { assert true; }\n",
    "html:DtdLexer": '<!-- a -->\n<!ELEMENT b (#PCDATA|c)*>\n<!ATTLIST b\n d CDATA #IMPLIED>\n<!ENTITY % e "f">\n',
}


class Sample(RegexLexer):
    """Each way to write a rule."""

    tokens = {
        "space": [(r"\s+", Whitespace), (r"#.*?$", Comment)],
        "root": [
            include("space"),
            (words(("let", "in", "let in"), suffix=r"\b"), Keyword, "head"),
            (r"[a-z_]\w*", Name),
            (r"(\d+)(px|em)?", bygroups(Number, Keyword.Type)),
            (r"^=+", Punctuation),
            (r"/\*(?:.|\n)*?\*/", Comment.Multiline),
            (r'"', String, ("text", "#push")),
            (r"\(", Punctuation, combined("close", "space")),
        ],
        "close": [(r"\)", Punctuation, "#pop")],
        "text": [(r'[^"\\]+', String), (r"\\.", String.Escape), (r'"', String, "#pop:2")],
        "head": [(r"\s+", Whitespace), (r"(?i:[f-z]+)", Name.Function, "#pop"), default("#pop")],
    }


def pattern(chance, depth=0):
    """A random pattern of Python's `re`."""
    kind = chance.randint(0, 5 if depth < 3 else 0)
    inner = [pattern(chance, depth + 1) for _ in range(chance.randint(1, 3))] if kind else []
    if kind == 0:
        return chance.choice(ATOMS)
    if kind == 1:
        return f"({'|'.join(inner)})"
    if kind == 2:
        return f"(?:{inner[0]}){chance.choice(['?', '*', '+', '{2}', '{1,}', '{0,2}'])}"
    return "".join(inner)


def check_pattern(chance):
    """The first token has the longest match; of a pattern that ends with the shortest match, or at the end of a line, what `re` finds."""
    flags = chance.choice([0, re.I, re.S, re.I | re.S, re.A, re.M])
    end = chance.choice(["", "", "[^a]*?a", ".*?[ \n]", ".+?-", ".*?$", r"(.|\n)*?_[a]*"])
    compiled = re.compile(("k+" if end else pattern(chance)) + end, flags)
    try:
        lexer = Lexer(f"A = {text_of(compiled)}\n")
    except Unsaid:
        return
    for _ in range(8):
        text = "k" * bool(end) + "".join(chance.choices(ALPHABET, k=chance.randint(1, 6)))
        found = compiled.match(text)
        sizes = [found.end()] if end and found else [] if end else [it for it in range(1, len(text) + 1) if compiled.fullmatch(text, 0, it)]
        piece = next(iter(lexer.pieces(text)))
        assert (piece.end if piece.kind is Kind.TOKEN else 0) == max(sizes, default=0), (compiled, text_of(compiled), text, piece)


def check_lexer(name, text):
    """A token has the type that Pygments gives its characters; if that gives several, they begin and end with those."""
    module, _, name_of_class = name.partition(":")
    types, ends = [], {0}
    for start, kind, part in getattr(importlib.import_module(module), name_of_class)().get_tokens_unprocessed(text):
        types += ["_".join(kind)] * len(part)
        ends.add(start + len(part))
    for piece in Lexer(rules_of(name).text()).pieces(text):
        found = {*types[piece.start : piece.end]}
        is_one = len(found) == 1
        assert piece.rule in found and (is_one or {piece.start, piece.end} <= ends), (piece, found)
