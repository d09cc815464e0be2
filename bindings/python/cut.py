"""cut.py RULES TEXT [RULES TEXT ..]: cuts each text by its file of rules, and writes and ends as bindings/c/cut.c does."""
import sys
from pathlib import Path

from bajofeki import Kind, Lexer, RulesError, RulesErrorKind

ESCAPES = {'"': '\\"', "\\": "\\\\", "\n": "\\n", "\r": "\\r", "\t": "\\t"}
STATUSES = {RulesErrorKind.BAD_LINE: 3, RulesErrorKind.NOT_PARSED: 3, RulesErrorKind.BAD_END: 3, RulesErrorKind.OUT_OF_MEMORY: 5}


def quoted(text):
    return '"' + "".join(ESCAPES.get(c) or (c if " " <= c != "\x7f" else f"\\u{{{ord(c):x}}}") for c in text) + '"'


def cut_text(lexer, path, front):
    """Cuts a text, and gives the status."""
    status = 0
    for piece in lexer.pieces(Path(path).read_bytes().decode()):
        if piece.kind is Kind.TOO_DEEP:
            print(f"cut: {path}:{piece.line}:{piece.column}: more than 1024 modes lie below the top", file=sys.stderr)
            return 1
        if piece.kind is not Kind.SKIPPED:
            print(f"{front}{piece.line}:{piece.column} {piece.rule or '!'} {quoted(piece.text)}")
        status = 1 if piece.kind is Kind.FAULT else status
    return status


def main(words):
    if not words or len(words) % 2:
        print("cut: usage: cut RULES TEXT [RULES TEXT ..]", file=sys.stderr)
        return 4
    greatest = 0
    for rules, text in zip(words[::2], words[1::2]):
        try:
            status = cut_text(Lexer(Path(rules).read_bytes()), text, f"{text}:" if len(words) > 2 else "")
        except RulesError as error:
            print(f"cut: {rules}: {error}", file=sys.stderr)
            status = STATUSES.get(error.kind, 2)
        greatest = max(greatest, status)
    return greatest


if __name__ == "__main__":
    sys.exit(main(sys.argv[1:]))
