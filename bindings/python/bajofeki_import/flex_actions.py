r"""What the actions of flex files do, as far as it can be told from their C.

>>> text = '#define TO(x) do { if (trace) log("x"); BEGIN x; } while (0)\nvoid leave(void) { yy_pop_state(); return; }'
>>> code = Code(text, {"STR", "INITIAL"})
>>> code.meaning("TO(STR); return QUOTE;")
Meaning(changes=['mode STR'], names=['QUOTE'], is_idle=False, is_end=False, left=None, note=None)
>>> code.meaning('{ leave(); ++lineno; /* "} */ }')
Meaning(changes=['pop'], names=[], is_idle=True, is_end=False, left=None, note=None)
>>> for action in "if (deep) leave();", "if (--deep) return A; BEGIN(0); return B;", "BEGIN(before);", "yyless(1);", 'log("BEGIN");':
...     print(code.meaning(action).left)
the state changes only sometimes
the state changes only sometimes
the state changes to one that isn't told
yyless changes what is matched
None
>>> [code.meaning(it).is_end for it in ("return END;", "yyterminate();", "free(s); yyterminate();", "f(); return s;", "if (f()) return END;")]
[True, True, True, False, False]
"""
import re
from collections import namedtuple

from .rules import identifier

TOKEN = re.compile(r"//[^\n]*|/\*.*?\*/|(\"(?:\\.|[^\"\\])*\"|'(?:\\.|[^'\\])*'|\w+|##|::|->|\+\+|--|\S)", re.S)
CUT = re.compile(r"\b(?:REJECT\b|(?:yymore|yyless|yyunput|unput|yyinput|input)(?= \())")
STATE = re.compile(r"\b(BEGIN|yy_push_state|yy_pop_state|yy_start)\b")
CHANGE = re.compile(r"BEGIN \(? ?(\w+) ?\)?|yy_push_state \( (\w+)(?: ,.*)? \)|yy_pop_state \(.*\)")
OTHER_TEXT = re.compile(r"\b(yy_switch_to_buffer|yypush_buffer_state|yypop_buffer_state|yyrestart|yy_scan_\w+)\b")
COUNT = re.compile(r"(?:\+\+ )?(?:\w+ (?:\.|->) )*\w*line\w*(?: \+\+| \+ = \w+)?|continue|break|leave|", re.I)
RETURNED = re.compile(r"return (?:\( (?:.* , )?)?(?:\w+ :: )*(?:(?!make_)([A-Za-z_]\w*)|make_(\w+) \(.*\)|'(.+)')(?: \))?")
END = re.compile(r"yyterminate \( \)|return(?: \( (?:- )?\d+ \)| (?:- )?\d+)?")
# What an action does. One that `is_idle` gives no token, and one that `is_end` only ends the scan or hands on that it ends; `left` is why no
# rule says it, and `note` what else flex does.
Meaning = namedtuple("Meaning", "changes names is_idle is_end left note")


def tokens_of(code):
    """The tokens of C without comments; all strings are empty.

    >>> tokens_of('f("BEGIN(A)"); // g')
    ['f', '(', '""', ')', ';']
    """
    return ['""' if it[0] == '"' else it for it in TOKEN.findall(code) if it]


def closing(tokens, at):
    """Where the bracket at a place is closed; the place itself if there is none."""
    depth = 0
    for end in range(at, len(tokens)):
        depth += (tokens[end] in ("(", "[", "{")) - (tokens[end] in (")", "]", "}"))
        if depth <= 0:
            return end
    return len(tokens)


def statement(tokens, at, is_sure, found):
    """Adds the simple statements in the statement at a place, and whether each is always run; where the next one begins."""
    word = tokens[at] if at < len(tokens) else ";"
    if word == "{":
        end = closing(tokens, at)
        at += 1
        while at < end:
            at = statement(tokens, at, is_sure, found)
        return end + 1
    if word in ("if", "while", "for", "switch"):
        end = closing(tokens, at + 1)
        found.append((" ".join(tokens[at + 1:end + 1]), is_sure))
        return statement(tokens, end + 1, False, found)
    if word in ("else", "do"):
        return statement(tokens, at + 1, is_sure and word == "do", found)
    end = at
    while end < len(tokens) and tokens[end] not in (";", "}"):
        end = closing(tokens, end) + 1
    found.append((" ".join(tokens[at:end]).replace(" ## ", ""), is_sure))
    return end + 1


def arguments(tokens):
    """The arguments between the parentheses of a call.

    >>> arguments(tokens_of("a, f(b, c)"))
    [['a'], ['f', '(', 'b', ',', 'c', ')']]
    """
    found, at = [[]], 0
    while at < len(tokens):
        end = closing(tokens, at) + 1
        found = [*found, []] if tokens[at] == "," else [*found[:-1], found[-1] + tokens[at:end]]
        at = end
    return found


def functions_of(tokens):
    """The names and bodies of functions. To return from one is only to leave it."""
    at = start = 0
    while at < len(tokens):
        end = closing(tokens, at)
        name = re.search(r"(\w+) \([^()]*\)[^(){}=;]*$", " ".join(tokens[start:at])) if tokens[at] == "{" else None
        if name:
            yield name[1], ["leave" if it == "return" else it for it in tokens[at:end + 1]]
        if tokens[at] in ("{", ";"):
            start = end + 1
        at = end + 1


class Code:
    """The macros and functions of a file, whose bodies stand for their calls, and its start conditions."""

    def __init__(self, code, modes):
        code = code.replace("\\\n", " ")
        # Where there are conditions, a name that is defined may have another meaning, or none.
        self.modes, self.called, self.has_conditions = modes, set(), bool(re.search(r"(?m)^[ \t]*#[ \t]*if", code))
        self.functions = dict(functions_of(tokens_of(re.sub(r"(?m)^[ \t]*#.*", "", code))))
        self.bodies = {name: ([], body) for name, body in self.functions.items()}
        for name, words, body in re.findall(r"^[ \t]*#[ \t]*define[ \t]+(\w+)(\([^)]*\))?(.*)", code, re.M):
            self.bodies[name] = (tokens_of(words)[1:-1:2] if words else None, tokens_of(body))

    def expanded(self, tokens, hidden):
        """The tokens with the bodies of what isn't hidden."""
        found, at = [], 0
        while at < len(tokens):
            word, at = tokens[at], at + 1
            words, body = self.bodies.get(word, (None, None)) if word not in hidden else (None, None)
            if body is None or words is not None and tokens[at:at + 1] != ["("]:
                found.append(word)
                continue
            self.called.add(word)
            if words is not None:
                end = closing(tokens, at)
                given, at = dict(zip(words, arguments(tokens[at + 1:end]))), end + 1
                body = [it for each in body for it in given.get(each, [each])]
            found += self.expanded(body, hidden | {word})
        return found

    def meaning(self, code, hidden=frozenset()):
        tokens, found, at = self.expanded(tokens_of(code), hidden), [], 0
        while at < len(tokens):
            at = statement(tokens, at, not re.search(r"^[ \t]*#[ \t]*if", code, re.M), found)
        changes, names, left, may_end, is_idle, is_end = [], [], None, False, True, True
        for text, is_sure in found:
            is_sure = is_sure and not may_end
            change, cut, returned = CHANGE.fullmatch(text), CUT.search(text), RETURNED.fullmatch(text)
            mode = change and (change[1] or change[2] or "").replace("0", "INITIAL" if change[1] == "0" else "0")
            if cut:
                left = left or f"{cut[0]} changes what is matched"
            elif change and is_sure and (mode or "INITIAL") in self.modes:
                changes.append(f"{'push' if change[2] else 'mode'} {identifier(mode)}" if mode else "pop")
            elif STATE.search(text):
                left = left or ("the state changes to one that isn't told" if is_sure else "the state changes only sometimes")
            names += ["".join(filter(None, returned.groups())) if returned else ""] * text.startswith("return")
            is_count = bool(COUNT.fullmatch(text))
            is_idle = is_idle and (is_count or bool(change))
            is_end = bool(is_end and (is_count or returned) or is_sure and END.fullmatch(text))
            may_end = may_end or bool(re.match("return|goto|break|continue|yyterminate" + "|leave" * (not is_sure), text))
            if is_sure and may_end:
                break
        # Another text comes first, and then the rest of this one.
        note = "here flex goes on with another text" if any(OTHER_TEXT.search(text) for text, _ in found) else None
        return Meaning(changes, names, is_idle, is_end and not (changes or left or note), left, note)
