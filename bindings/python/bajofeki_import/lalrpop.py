"""The terminals of a lalrpop grammar as rules: those of its match block, and those that its productions use once macros are expanded.

They have lalrpop's precedences. Of the groups of a match block the last counts 2, the one before it 4, and so on, and a literal one more; a
terminal that no group lists has 1 if it is a literal, else 0. A grammar that skips nothing skips white space, which wins whatever else
matches as much. A rule takes the longest of its matches; a regex in a lexer of lalrpop 0.19 takes that of its first branch, so `r"a|ab"`
never takes `ab`.
"""
import re
from collections import namedtuple
from itertools import count, groupby, takewhile
from pathlib import Path

from bajofeki import Outcome, check

from .rules import Rules, escaped, identifier

# What a grammar and its Rust code have in common.
COMMON = r"""
    (?P<space> \s+ | //[^\n]* )
  | (?P<regex> r(?P<hashes>\#*)" (?s:.*?) "(?P=hashes) )
  | (?P<text> "(?: [^"\\] | \\(?s:.) )*" )
  | (?P<character> '(?: \\.[^']* | [^\\] )' )
"""
TOKEN = COMMON + r"""
  | (?P<attribute> \#!\[.*\] ) | (?P<keyword> (?: enum | extern | grammar | match | else | if | pub ) \b ) | (?P<use> use\b )
  | (?P<code> => ) | (?P<macro> [^\W\d]\w* (?=<) ) | (?P<name> [^\W\d]\w* | `[^`]*` )
  | (?P<sign> @[LR] | [=!]= | [!~]~ | :: | -> | \.\. | [][&!:,=\#>{(<+?});*'] )
"""
TOKEN = re.compile(TOKEN, re.X)
CODE = re.compile(COMMON + r"| /\*(?s:.*?)\*/ | b(?=r[\#\"]) | \w+ | (?P<open>[(\[{]) | (?P<close>[)\]}]) | (?P<end>[,;]) | (?s:.)", re.X)
ESCAPES = {"n": "\n", "r": "\r", "t": "\t", "\\": "\\", '"': '"'}
SIGNS = """BANG QUOTE HASH DOLLAR PERCENT AND APOSTROPHE OPEN CLOSE STAR PLUS COMMA MINUS DOT SLASH COLON SEMICOLON LESS EQUAL GREATER
    QUESTION AT OPEN_BRACKET BACKSLASH CLOSE_BRACKET CARET BACKTICK OPEN_BRACE PIPE CLOSE_BRACE TILDE SPACE NEWLINE RETURN TAB"""
SIGNS = dict(zip("!\"#$%&'()*+,-./:;<=>?@[\\]^`{|}~ \n\r\t", SIGNS.split()))
MOST = 1000  # tokens in an argument of a macro: one with more comes of a macro that uses itself with ever longer ones
Token = namedtuple("Token", "kind text line at")  # of a grammar; the kind of a sign or a keyword is itself
# What the lexer matches, a literal or a regex, and what it gives for that: a name or a terminal, or it is skipped.
Entry = namedtuple("Entry", "precedence matches gives token")


def end_of_code(text, at):
    r"""Where the Rust code ends that begins at a place: at the first comma, semicolon or closing bracket outside brackets.

    >>> text = "{ ',' } + '\\\"' /* , */ + f(\"}\\\",\", br\"\\\", \"(\"), x"
    >>> text[end_of_code(text, 0) :]
    ', x'
    """
    depth = 0
    while at < len(text):
        match = CODE.match(text, at)
        if depth == 0 and (match["end"] or match["close"]):
            break
        depth += bool(match["open"]) - bool(match["close"])
        at = match.end()
    return at


def tokens_of(text):
    """The tokens of a grammar. An action is one; `use` with what it names is none, nor an attribute of the module.

    >>> [it[:2] for it in tokens_of('use a::{b}; A<"b"> => (1, 2), // C')]
    [(';', ';'), ('macro', 'A'), ('<', '<'), ('text', '"b"'), ('>', '>'), ('code', ' (1, 2)'), (',', ',')]
    """
    at, line, found = 0, 1, []
    while at < len(text):
        match = TOKEN.match(text, at)
        if not match:
            raise ValueError(f"line {line}: no token of a grammar begins with {text[at]!r}")
        start, at = at, match.end()
        kind, word = match.lastgroup, match[0]
        if kind in ("code", "use"):
            at = end_of_code(text, at)
            word = text[match.end() : at]
        if kind not in ("space", "attribute", "use"):
            found.append(Token(word if kind in ("sign", "keyword") else kind, word, line, start))
        line += text.count("\n", start, at)
    return found


def runs(tokens):
    """The tokens outside brackets, and each bracket with what it encloses, as lists."""
    run, depth = [], 0
    for token in tokens:
        run.append(token)
        depth += (token.kind in "([{<") - (token.kind in ")]}>")
        if depth == 0:
            yield run
            run = []
    if run:
        raise ValueError(f"line {run[0].line}: {run[0].text} is a bracket without its other half")


def split(tokens):
    """What commas outside brackets separate, without what is empty."""
    groups = groupby(runs(tokens), lambda it: it[0].kind == ",")
    return [[token for run in group for token in run] for is_comma, group in groups if not is_comma]


def upto(kind, items):
    """The tokens of items before one of this kind, which is taken too."""
    return [token for run in takewhile(lambda it: it[0].kind != kind, items) for token in run]


def terminal(token):
    r"""The terminal that a token is: its kind, and its text or pattern.

    >>> [terminal(it) for it in tokens_of(r'"\n" r#"\n"#')]
    [('text', '\n'), ('regex', '\\n')]
    """
    text = token.text[token.text.index('"') + 1 : token.text.rindex('"')]
    try:
        return token.kind, re.sub(r"(?s)\\(.)", lambda it: ESCAPES[it[1]], text) if token.kind == "text" else text
    except KeyError as error:
        raise ValueError(f"line {token.line}: lalrpop has no escape \\{error.args[0]}") from None


class Grammar:
    """What a grammar says of its terminals: the groups of its match block, and the alternatives of its macros and other nonterminals."""

    def __init__(self, text):
        self.groups, self.macros, self.plain = [], {}, []
        items = runs(tokens_of(text))
        for first, *_ in items:
            if first.kind == "extern":
                if any(it.kind == "enum" for it in next(items, [])):
                    raise ValueError(f"line {first.line}: `extern` names the tokens of another lexer, so this grammar has no terminals")
            elif first.kind in ("match", "else"):
                self.groups.append(split(next(items, [])[1:-1]))
            elif first.kind == "grammar":
                upto(";", items)
            elif first.kind in ("name", "macro"):
                self.nonterminal(first, items)
            elif first.kind not in ("#", "[", "pub", "(", ";"):
                raise ValueError(f"line {first.line}: no item of a grammar begins with {first.text}")

    def nonterminal(self, first, items):
        parameters = [it[0].text for it in split(next(items, [])[1:-1])] if first.kind == "macro" else []
        upto("=", items)
        body = next(items, [])
        alternatives = split(body[1:-1]) if [it.kind for it in body[:1]] == ["{"] else [body + upto(";", items)]
        if first.kind == "macro":
            self.macros[first.text] = parameters, alternatives
        else:
            self.plain += alternatives

    def terminals(self):
        """The first token of each terminal that productions use, in order."""
        found, uses, work = {}, set(), [produced(it, {}) for it in self.plain]
        while work:
            items = runs(work.pop())
            for first, *inside in items:
                if first.kind in ("text", "regex"):
                    key = terminal(first)
                    found[key] = min(found.get(key, first), first, key=lambda it: it.at)
                elif first.kind == "macro":
                    arguments = split(next(items, [])[1:-1])
                    # An argument that is a terminal counts only where the macro uses it.
                    work += [it for it in arguments if len(it) > 1] + self.expanded(first, arguments, uses)
                else:
                    work.append(inside[:-1])
        return dict(sorted(found.items(), key=lambda it: it[1].at))

    def expanded(self, macro, arguments, uses):
        """What the alternatives of a macro produce, if it has these arguments for the first time."""
        use = macro.text, tuple(tuple(token.text for token in it) for it in arguments)
        if use in uses:
            return []
        uses.add(use)
        if any(len(it) > MOST for it in arguments):
            raise ValueError(f"line {macro.line}: the macro {macro.text} is used without end")
        parameters, alternatives = self.macros.get(macro.text, (None, []))
        if parameters is None or len(parameters) != len(arguments):
            raise ValueError(f"line {macro.line}: there is no macro {macro.text} with {len(arguments)} parameters")
        return [produced(it, dict(zip(parameters, arguments))) for it in alternatives]


def produced(alternative, scope):
    """The symbols of an alternative, its parameters replaced by their arguments; none if its condition doesn't hold."""
    end = next((at for at, it in enumerate(alternative) if it.kind in ("if", "code")), len(alternative))
    if alternative[end:] and alternative[end].kind == "if" and not holds(alternative[end : end + 4], scope):
        return []
    symbols, items = [], runs(alternative[:end])
    for run in items:
        if run[0].kind == "#":
            next(items, [])  # an attribute
            continue
        for token, after in zip(run, [*run[1:], None]):
            # In `<name:symbol>` the name is none of a symbol.
            is_parameter = token.kind == "name" and token.text in scope and not (after and after.kind == ":")
            symbols += scope[token.text] if is_parameter else [token]
    return symbols


def holds(condition, scope):
    """Whether a condition as `if T == "x"` holds."""
    given = scope.get(condition[1].text) if [it.kind for it in condition[1::2]] == ["name", "text"] else None
    if not given or given[0].kind != "text":
        raise ValueError(f"line {condition[0].line}: only a parameter that is a literal has a condition")
    (_, text), (_, wanted), operator = terminal(given[0]), terminal(condition[3]), condition[2].kind
    try:
        is_found = text == wanted if operator in ("==", "!=") else bool(re.search(wanted, text))
    except re.error as error:
        raise ValueError(f"line {condition[0].line}: {error}") from None
    return is_found == (operator in ("==", "~~"))


def given_for(item):
    """What an item of a match block gives."""
    first = (tokens_of(item[-1].text) or item)[0]
    return ("skip", terminal(item[0])) if first.kind == "{" else ("name", first.text) if first.kind == "name" else terminal(first)


def entries_of(grammar):
    """What the lexer of a grammar matches: the match block's, what else is used, and white space if nothing is skipped."""
    listed = ((place, it) for place, group in zip(count(len(grammar.groups), -1), grammar.groups) for it in group)
    listed = [(place, it, it[0]) for place, it in listed if it[0].kind in ("text", "regex")]
    entries = [Entry(2 * place + (first.kind == "text"), terminal(first), given_for(it), first) for place, it, first in listed]
    known, takes_others = {it.gives for it in entries}, not grammar.groups or len(entries) < sum(map(len, grammar.groups))
    for matches, token in grammar.terminals().items():
        if matches not in known:
            if not takes_others:
                raise ValueError(f"line {token.line}: the match block has no {token.text}, and no `_`")
            entries.append(Entry(int(matches[0] == "text"), matches, matches, token))
    if all(it.gives[0] != "skip" for it in entries):
        entries.append(Entry(max((it.precedence for it in entries), default=0) + 1, ("regex", r"\s+"), ("space", ""), None))
    return entries


def names_of(given):
    """A name for a rule for each thing that entries give.

    >>> names_of([("text", "+="), ("text", "not in"), ("regex", "b"), ("name", "PLUS_EQUAL"), ("text", "")]).values()
    dict_values(['PLUS_EQUAL', 'PLUS_EQUAL_1', 'not_SPACE_in', 'REGEX_1', 'EMPTY'])
    """
    names = {}
    # What the grammar names comes first, so that it keeps its name.
    for kind, text in sorted(dict.fromkeys(given), key=lambda it: it[0] != "name"):
        words = re.findall(r"\w+|\W", text) if kind in ("name", "text") else [kind.upper()]
        stem = identifier("_".join(SIGNS.get(it, it) for it in words) or "EMPTY")
        tries = (f"{stem}_{number}" if number else stem for number in count(kind in ("regex", "skip")))
        names[kind, text] = next(it for it in tries if it not in names.values())
    return names


def plain(pattern):
    r"""A pattern on one line, without the flag `x`, which a rule doesn't have.

    >>> plain("(?ix) a\\ b # no\n | [ c ]"), plain("a\n b")
    ('(?i)a\\ b|[c]', 'a\\n b')
    """
    verbose = re.match(r"\(\?(\w*)x(\w*)\)", pattern)
    if verbose:
        flags = verbose[1] + verbose[2]
        pattern = f"(?{flags})" * bool(flags) + re.sub(r"(?s)(\\.)|\s+|#[^\n]*", lambda it: it[1] or "", pattern[verbose.end() :])
    return pattern.replace("\n", r"\n").replace("\r", r"\r")


def refusal(text):
    """Why no rule has this text, or False."""
    outcome, _, message = check(f"A = {text}\n")
    is_refused = outcome in (Outcome.REFUSED, Outcome.UNREAD)
    return is_refused and re.search(r"^tokens: (?!rules:[0-9:]+ warning)(?:rules:[0-9:]+ )?(.*)", message, re.M)[1]


def rules_of(name):
    rules, entries = Rules(name), entries_of(Grammar(Path(name).read_bytes().decode()))
    names = names_of(it.gives for it in entries)
    for precedence, (kind, value), gives, token in entries:
        text = escaped(value) if kind == "text" else f"/{plain(value)}/"
        reason = refusal(text)
        if reason:
            rules.leave_out(token.line, token.text, reason)
        else:
            rules.rule(names[gives], text, None if precedence == (kind == "text") else precedence, gives[0] in ("skip", "space"))
    return rules
