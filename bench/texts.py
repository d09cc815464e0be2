#!/usr/bin/env python3
"""Makes terminals and a text for bench/run: writes NAME.terminals, and NAME.text where there is a text, to the current folder.

    bench/texts.py NAME ..

NAME is c, long, rust, json or unicode: terminals, and a text of 5 MB of their tokens, the same each time. Or one of

    real.KIND      the terminals of c, rust or json, and of all else that real files have
    open.N         the terminals `a` and `a*b`, and N times `a`: each token is known only at the end of the text
    comment.N      the terminals of C, and N times `/*x`: a comment that is never closed
    clashes        the terminals of C, and ten that clash with them
    equal.N        N times the same word
    words.N        N words of five letters
    words.N.name   the same, and a name
    window, up_to.N, exactly.N      `(a|b)*a(a|b){12}`, `[a-z]{0,N}`, `[a-z]{N}`
    letters.N, branches.N, brackets.N      one pattern, of N parts
    name, folded, operated                 one short pattern"""
import sys

LENGTH = 5_000_000
KEYWORDS = """abstract and as assert async await become box break case catch char class const continue crate def default del
delete do double dyn elif else enum except export extends extern false final finally float fn for from global goto if impl implements
import in int interface is lambda let long loop macro match mod move mut native new nonlocal not null or override package pass priv
private protected pub public raise ref register return self short signed sizeof static struct super switch template this throw throws
trait true try type typedef union unsafe unsigned use using void where while yield""".split()
C_KEYWORDS = """auto break case char const continue default do double else enum extern float for goto if inline int long register
restrict return short signed sizeof static struct switch typedef union unsigned void volatile while _Bool _Complex _Imaginary""".split()
C_OPERATORS = """[ ] ( ) { } . -> ++ -- & * + - ~ ! / % << >> < > <= >= == != ^ | && || ? : ; ... = *= /= %= += -= <<= >>= &= ^=
|= ,""".split()
RUST_KEYWORDS = """as break const continue crate else enum extern false fn for if impl in let loop match mod move mut pub ref return
self Self static struct super trait true type unsafe use where while async await dyn""".split()
RUST_OPERATORS = """+ - * / % ^ ! & | && || << >> += -= *= /= %= ^= &= |= <<= >>= = == != > < >= <= @ . .. ... ..= , ; : :: -> =>
# $ ? ~ { } [ ] ( )""".split()
NAMES = """i j n x buf len ptr node next prev list index count size offset flags value result state table entry key data size_t uint32_t
malloc free memcpy printf NULL MAX_LENGTH EOF is_valid get_next token_kind line file name argc argv""".split()
LETTERS = "α λ ψ ж щ é ü 名 前 変 数 a n _x ﬁ ß".split()
COMMENT = r"//[^\n]*|/\*([^*]|\*+[^*/])*\*+/"
C = (
    C_KEYWORDS + C_OPERATORS,
    [
        "[A-Za-z_][A-Za-z0-9_]*",
        "[0-9]+[uUlL]*",
        "0[xX][0-9a-fA-F]+[uUlL]*",
        r"([0-9]+\.[0-9]*|\.[0-9]+)([eE][-+]?[0-9]+)?[fFlL]?",
        r"'([^'\\\n]|\\.)+'|" + r'"([^"\\\n]|\\.)*"',
        COMMENT,
        r"[ \t\n]+",
    ],
)
PLANTED = (
    ["while", "return", "++", "<<=", "_Bool"],
    ["[a-z]+_t", "0[0-7]*", r"[0-9]+\.[0-9]+", r'"[^"\n]*"', r"[\t\n]+"],
)
RUST = (
    RUST_KEYWORDS + RUST_OPERATORS,
    [
        "[A-Za-z_][A-Za-z0-9_]*",
        "'[A-Za-z_][A-Za-z0-9_]*",
        r"'([^'\\\n]|\\.)'",
        "[0-9][0-9_]*([iu](8|16|32|64|128|size))?",
        "0x[0-9a-fA-F_]+",
        r"[0-9][0-9_]*\.[0-9][0-9_]*(e[-+]?[0-9]+)?",
        r'"([^"\\]|\\(.|\n))*"',
        COMMENT,
        r"[ \t\n]+",
    ],
)
JSON = (
    ["{", "}", "[", "]", ":", ",", "true", "false", "null"],
    [r'"([^"\\\x00-\x1f]|\\.)*"', r"-?(0|[1-9][0-9]*)(\.[0-9]+)?([eE][-+]?[0-9]+)?", r"[ \t\n\r]+"],
)
REST = {
    "c": (["#", "##", "\\", "@", "$", "`", '"', "'"], []),
    "rust": (["\\", "`", '"', "'"], []),
    "json": (["\\", '"'], [r"[A-Za-z_.\-+*/=<>(){}@#$%&!?;',`~|^]"]),
}
UNICODE = KEYWORDS, [r"[\w--\d]\w*", r"\d+", r"[ \n]+"]
LONG_COMMENTS = [
    "/* A node has a left and a right part, and the parts of a node are nodes again. */",
    "// Goes from the root to a leaf, and counts the nodes that it meets on the way down.",
    "/* What is said here takes several lines:\n * the list ascends,\n * and nothing is twice in it.\n */",
]
LONG_STRINGS = [
    '"a file of this name is there already, and is not written over"',
    '"usage: cut [-n] RULES FILE, where RULES has a line for each terminal\\n"',
]


class Numbers:
    """Numbers that look random, and are the same each time."""

    def __init__(self, state):
        self.state = state

    def below(self, bound):
        self.state = (self.state * 6_364_136_223_846_793_005 + 1_442_695_040_888_963_407) % 2**64
        return (self.state >> 33) % bound

    def of(self, words):
        return words[self.below(len(words))]


def choose(numbers, *rows):
    """What stands in the first row that begins above a number below the last row's: rows are (END, WORD or WORDS)."""
    number = numbers.below(rows[-1][0])
    it = next(it for end, it in rows if number < end)
    return it if isinstance(it, str) else numbers.of(it)


def c_token(numbers):
    return choose(numbers, (4, C_KEYWORDS), (10, NAMES), (12, "42"), (13, "0x1fUL"), (14, '"a text\\n"'), (15, "/* what it does, and why */"), (16, "\n        "), (20, C_OPERATORS)) + " "


def rust_token(numbers):
    return choose(numbers, (4, RUST_KEYWORDS), (10, NAMES), (11, "42usize"), (12, "'text"), (13, "0.25"), (14, '"a text\\n"'), (15, "// what it does, and why\n"), (16, "\n        "), (20, RUST_OPERATORS)) + " "


def long_token(numbers):
    return choose(numbers, (1, LONG_COMMENTS), (2, LONG_STRINGS), (4, NAMES)) + "\n        "


def json_token(numbers):
    value = '{"' + numbers.of(NAMES) + '": '
    return value + choose(numbers, (1, "true"), (2, "null"), (3, "-12.5e3"), (4, "1024"), (5, "[1, 2, 3]"), (6, '"a value\\twith an escape"')) + "},\n  "


def unicode_token(numbers):
    token = choose(numbers, (1, KEYWORDS), (2, "17"), (4, "v"))
    return (token if token != "v" else "v" + "".join(numbers.of(LETTERS) for _ in range(numbers.below(7)))) + " "


TEXTS = {"c": (C, c_token, 1), "unicode": (UNICODE, unicode_token, 2), "long": (C, long_token, 3), "json": (JSON, json_token, 4), "rust": (RUST, rust_token, 5)}


def text_of(token, state):
    numbers, parts, length = Numbers(state), [], 0
    while length < LENGTH:
        parts.append(token(numbers))
        length += len(parts[-1].encode())
    return "".join(parts)


def five_letters(index):
    number = index * 48_271 % 26**5
    return "".join(chr(ord("a") + number // 26**place % 26) for place in range(5))


def real(kind):
    """The terminals of a language, and of all else: other blanks, control characters, and characters beyond ASCII."""
    (words, patterns), (more, others) = TEXTS[kind][0], REST[kind]
    patterns = [it for it in patterns if not it.startswith("[ ")]
    return words + more, patterns + [r"[ \t-\r]+", *others, r"[^\x00-\x7f]+", r"[\x00-\x08\x0e-\x1f\x7f]"], ""


def made(name):
    """The words, the patterns and the text of a name."""
    kind, *rest = name.split(".")
    if kind == "real":
        return real(rest[0])
    count = int(rest[0]) if rest else 0
    if kind in TEXTS:
        (words, patterns), token, state = TEXTS[kind]
        return words, patterns, text_of(token, state)
    one = {"name": "[a-zA-Z_][a-zA-Z0-9_]*", "folded": r"(?i)\w", "operated": r"[\w--\d&&\p{Greek}]", "window": "(a|b)*a(a|b){12}"}
    one |= {"up_to": f"[a-z]{{0,{count}}}", "exactly": f"[a-z]{{{count}}}", "letters": "a" * count, "branches": "ab|" * count, "brackets": "[a-z0-9_]" * count}
    return {
        "open": lambda: (["a"], ["a*b"], "a" * count),
        "comment": lambda: (*C, "/*x" * count),
        "clashes": lambda: (C[0], C[1] + [(1, it) for it in PLANTED[0]] + PLANTED[1], ""),
        "equal": lambda: (["equal"] * count, [], ""),
        "words": lambda: ([five_letters(it) for it in range(count)], [one["name"]] if rest[1:] else [], ""),
    }.get(kind, lambda: ([], [one[kind]], ""))()


def line(it):
    return f"1 l {it[1]}\n" if isinstance(it, tuple) else f"0 r {it}\n"


for name in sys.argv[1:] or sys.exit(__doc__):
    words, patterns, text = made(name)
    with open(f"{name}.terminals", "w") as file:
        file.writelines(map(line, [(1, it) for it in words] + patterns))
    if text:
        with open(f"{name}.text", "w") as file:
            file.write(text)
