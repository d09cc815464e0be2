r"""The rules and start conditions of a flex file.

>>> text = '%x STR\nD [0-9]\n%%\n{D}+ return NUMBER;\n\\" BEGIN(STR);\n<STR>{\n[^"]+ return TEXT;\n\\" BEGIN(0);\n}\n^#.* |\n[ \\n] ;\n'
>>> print(rules_in(text, "a.l").text(), end="")
# Where flex takes a byte that isn't ASCII, these rules take a character.
D part = /[0-9]/
<BLANKLINE>
[INITIAL STR]
<BLANKLINE>
[INITIAL]
NUMBER = 6 /{D}+/
RULE_5 skip mode STR = 5 "\""
<BLANKLINE>
[STR]
TEXT = 4 /[^"]+/
RULE_8 skip mode INITIAL = 3 "\""
<BLANKLINE>
[INITIAL]
# a.l:10: left out: ^#.*: ^ asks for the beginning of a line
RULE_11 skip = 1 /[\n ]/
"""
import re
from collections import namedtuple

from .flex_actions import Code, tokens_of
from .flex_loops import read_by
from .flex_patterns import PatternReader, Reader, Unsayable, flat, in_series, is_nullable, rests, said
from .rules import Rules, identifier

HEAD = re.compile(r"""
    (?P<end>%%) .*\n | %\{.*\n (?P<code>(?:.*\n)*?) %\}.*\n | (?P<top>%top[ \t]*)(?=\{) | %option (?P<options>.*)\n
    | %(?P<kind>[sx])\w* (?P<modes>.*)\n | (?P<name>[A-Za-z_][\w-]*) [ \t]+ (?P<value>\S.*)\n | /\*(?:.|\n)*?\*/.*\n | (?P<line>.*\n)
    """, re.X | re.I)
ACTION = re.compile(r'/\*.*?\*/|"(?:\\.|[^"\\\n])*["\n]?|\'(?:\\.|[^\'\\\n])*[\'\n]?|.', re.S)
Rule = namedtuple("Rule", "line modes what tree left action")  # without an action it shares the next one's


class FlexFile(Reader):
    """What a flex file says; its text has a character for each byte."""

    def __init__(self, text):
        super().__init__(re.sub(r"\r?\n|\Z", "\n", text))
        # Of each mode, whether it is exclusive.
        self.code, self.rules, self.modes, self.definitions, self.flags, self.size = "", [], {"INITIAL": False}, {}, frozenset(), 256
        self.head()
        before = self.at
        while self.take(r"[ \t]+.*\n|%\{(?:.*\n)*?%\}.*\n|\n"):
            pass
        self.before = re.sub("(?m)^%[{}].*", "", self.text[before:self.at])
        self.body()
        self.code += self.text[self.at:]

    def head(self):
        """The section of definitions."""
        while not (found := self.take(HEAD)) or not found["end"]:
            if not found:
                raise ValueError("no line %% of flex")
            if found["top"]:
                self.code += self.action()
            self.code += found["code"] or found["line"] or ""
            self.set_options(re.findall(r"[\w-]+", re.sub(r'"[^"]*"', "", found["options"] or "")))
            for name in re.findall(r"[A-Za-z_][\w-]*", re.sub(r"/\*.*?\*/", "", found["modes"] or "")):
                self.modes[name] = found["kind"] in "xX"
            if found["name"]:
                self.definitions[found["name"]] = found["value"].rstrip(" \t")

    def set_options(self, words):
        if {"lex-compat", "posix-compat"}.intersection(words):
            raise ValueError("patterns mean something else with lex-compat and posix-compat")
        if {"caseless", "case-insensitive"}.intersection(words):
            self.flags = frozenset("i")
        self.size = 128 if "7bit" in words else self.size

    def action(self):
        """The text up to the end of the line, or of that on which its last brace is closed."""
        start, depth = self.at, 0
        for token in ACTION.finditer(self.text, start):
            depth += (token[0] == "{") - (token[0] == "}")
            self.at = token.end()
            if token[0].endswith("\n") and depth <= 0:
                break
        return self.text[start:self.at]

    def body(self):
        """The section of rules."""
        scopes = [()]
        while self.at < len(self.text) and not self.take("%%.*"):
            if self.take(r"[ \t]*\n|[ \t]*%\{(?:.|\n)*?%\}.*\n"):
                continue
            if self.take(r"[ \t]*\}"):
                scopes = scopes[:-1] or scopes
            elif not self.take(r"[ \t]*(?=/\*)"):
                names = re.findall(r"[\w-]+|\*", self.take(r"[ \t]*(?:<(?!<EOF>>)([^>]*)>\s*)?")[1] or "")
                if not {"*", *self.modes}.issuperset(names):
                    raise ValueError(f"start conditions that aren't declared: {names}")
                scopes.append(scopes[-1] + tuple(self.modes if "*" in names else names))
                if not self.take(r"\{(?![A-Za-z_][\w-]*\}|\d)"):
                    scope = scopes.pop() or [it for it, is_exclusive in self.modes.items() if not is_exclusive]
                    self.rules.append(self.rule(tuple(it for it in self.modes if it in scope)))
                    continue
            self.action()

    def rule(self, modes):
        line, start = self.text.count("\n", 0, self.at) + 1, self.at
        if self.take("<<EOF>>"):
            tree, left = None, "the end of a text is no token"
        else:
            reader = PatternReader(self.text, self.at, self.definitions, self.flags, self.size)
            tree = reader.whole(self.flags)
            self.at, left = reader.at, reader.left
        what = self.text[start:self.at].encode("latin-1").decode(errors="replace")
        if self.take(r"[ \t]+\|.*\n"):
            return Rule(line, modes, what, tree, left, None)
        block = self.take(r"[ \t]+%\{((?:.|\n)*?)%\}.*\n")
        return Rule(line, modes, what, tree, left, block[1] if block else self.action())


def is_alone(rule, rules):
    """Where it matches, does it win whatever comes after that? Then it still wins if it matches more."""
    sets = flat(rule.tree)
    if not sets or any(it[0] != "set" for it in sets):
        return False
    for other in rules:
        trees = [other.tree] if other.tree and not set(rule.modes).isdisjoint(other.modes) else []
        for _, codes in sets:
            trees = [it for tree in trees for it in rests(tree, codes)]
        if any(rests(it, range(256)) for it in trees) or other.line < rule.line and any(map(is_nullable, trees)):
            return False
    return True


def with_read(rule, action, code, rules):
    """A rule with what its action reads by itself, and the meaning of the rest of the action."""
    tokens = tokens_of(action)
    expanded = code.expanded(tokens, set())
    read = read_by(expanded) if rule.tree and not (code.has_conditions and expanded != tokens) else None
    if not read or not is_alone(rule, rules):
        return rule, code.meaning(action)
    meaning = code.meaning(read.rest)
    note = meaning.note or read.is_endless and "flex 2.6.4 never ends this if the text ends first"
    return rule._replace(tree=in_series(rule.tree, read.tree)), meaning._replace(note=note)


def rules_in(text, source):
    """The rules of a flex file, given as text with a character for each byte."""
    file, rules, parts = FlexFile(text), Rules(source), {}
    code, action, found = Code(file.code, set(file.modes)), "", []
    for precedence, rule in enumerate(reversed(file.rules), 1):
        action, own = action if rule.action is None else rule.action, dict(parts)
        rule, meaning = with_read(rule, action, code, file.rules)
        try:
            left, text = rule.left or meaning.left, rule.tree and said(rule.tree, own)
        except Unsayable as reason:
            left, text = str(reason), ""
        # Every lexer ends its scan at the end of a text.
        if rule.tree or not meaning.is_end:
            found.append((precedence, rule, meaning, left, text))
        parts = parts if left else own
    rules.comment("Where flex takes a byte that isn't ASCII, these rules take a character.")
    rules.lines += [f"{name} part = /{pattern}/" for name, pattern in parts.items()]
    write(file, rules, reversed(found))
    elsewhere(file, rules, code)
    return rules


def write(file, rules, found):
    """Writes the rules; the first one has the highest precedence."""
    modes = every = tuple(file.modes)
    if every[1:]:
        # A text begins in the first mode, and all have a name even if no rule is theirs.
        rules.section(*map(identifier, every))
    for precedence, rule, meaning, left, text in found:
        if rule.modes != modes:
            rules.section(*(["*"] if rule.modes == every else map(identifier, rule.modes)))
        modes = rule.modes
        if left:
            rules.leave_out(rule.line, rule.what, left)
            continue
        if meaning.note:
            rules.comment(f"{rules.source}:{rule.line}: {meaning.note}")
        if meaning.changes and is_nullable(rule.tree):
            rules.leave_out(rule.line, rule.what, "an empty match changes the state")
        # What all returns give is the name.
        name = identifier(meaning.names[0]) if len({*meaning.names}) == 1 and meaning.names[0] else f"RULE_{rule.line}"
        rules.rule(name, text, precedence, meaning.is_idle, meaning.changes)


def elsewhere(file, rules, code):
    """Reports what changes the state, but is in no rule's action."""
    others = {"code before the rules": file.before, "YY_USER_ACTION": "YY_USER_ACTION"}
    others.update((name, " ".join(body)) for name, body in code.functions.items() if name not in code.called)
    for name, body in others.items():
        meaning = code.meaning(body, frozenset(code.functions))
        if meaning.changes or meaning.left:
            place = re.search(rf"\b{name}\s*\([^;]*?\{{|\Z" if name in code.functions else "(?m)^%%", file.text).start()
            rules.leave_out(file.text.count("\n", 0, place) + 1, name, f"outside of the rules {meaning.left or 'the state changes'}")


def rules_of(name):
    with open(name, encoding="latin-1", newline="") as file:
        try:
            return rules_in(file.read(), name)
        except RecursionError:
            raise ValueError("definitions that need themselves, or too deep nesting") from None
