"""A file of rules in the making, and what couldn't be said in it."""
import re
import unicodedata


def escaped(text):
    r"""The text between quotes, as a rule has it.

    >>> print(escaped('a"\n'))
    "a\"\n"
    """
    known = {"\n": r"\n", "\r": r"\r", "\t": r"\t", "\\": r"\\", '"': r"\""}
    return '"' + "".join(known.get(it) or (it if it.isprintable() else f"\\u{{{ord(it):x}}}") for it in text) + '"'


def identifier(text):
    """A name that a rule can have, from any text that isn't empty.

    >>> identifier("if"), identifier("+="), identifier("3d")
    ('if', '_2b_3d', '_3d')
    """
    name = re.sub(r"[^A-Za-z0-9_]", lambda it: f"_{ord(it[0]):x}", text)
    return name if re.match("[A-Za-z_]", name) else f"_{name}"


def character(code):
    r"""A character in a pattern. One that is written from right to left would turn its line around.

    >>> print(character(ord("[")), character(10), character(0x1f600), character(0xad), character(0x5d0))
    \[ \n 😀 \x{ad} \x{5d0}
    """
    text = chr(code)
    if text.isprintable() and unicodedata.bidirectional(text) not in ("R", "AL"):
        return f"\\{text}" if text in r"\.+*?()|[]{}^$-&~" else text
    return {9: r"\t", 10: r"\n", 11: r"\v", 12: r"\f", 13: r"\r"}.get(code, f"\\x{{{code:x}}}")


class Rules:
    """What is read of a file becomes lines of rules; what can't be said becomes a comment with its line and reason."""

    def __init__(self, source):
        self.source, self.lines, self.count, self.left = source, [], 0, 0

    def section(self, *modes):
        self.lines += ["", f"[{' '.join(modes)}]"]

    def comment(self, text):
        self.lines.append(f"# {text}")

    def rule(self, name, text, precedence=None, skip=False, actions=()):
        """A rule; `text` is what stands after `=`, as `/[a-z]+/`, or what `escaped` gives."""
        head = " ".join([name, *["skip"] * skip, *actions, "="])
        self.lines.append(f"{head} {text}" if precedence is None else f"{head} {precedence} {text}")
        self.count += 1

    def leave_out(self, line, what, reason):
        """Something of the file that no rule says."""
        self.comment(f"{self.source}:{line}: left out: {' '.join(what.split())}: {reason}")
        self.left += 1

    def text(self):
        return "\n".join(self.lines).lstrip("\n") + "\n"

    def summary(self):
        return f"{self.source}: {self.count} rules, {self.left} left out"
