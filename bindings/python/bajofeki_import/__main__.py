"""Writes a file of rules made of what other tools read.

    bajofeki-import lalrpop FILE             the terminals of a grammar of lalrpop
    bajofeki-import flex FILE                the rules and start conditions of a flex file
    bajofeki-import pygments MODULE:CLASS    the states of a Pygments lexer

What no rule can say becomes a comment with its line, or its state in Pygments, and the reason; standard error has their count. MODULE is
imported, so its code runs.

Exit status: 0 if all is said, 1 if something is left out, 2 if there is no such grammar, file or lexer, 4 for wrong arguments.
"""
import importlib
import sys

KINDS = ("lalrpop", "flex", "pygments")


def main():
    words = sys.argv[1:]
    if words in (["-h"], ["--help"]):
        print(__doc__.strip())
        return 0
    if len(words) != 2 or words[0] not in KINDS:
        print(f"bajofeki-import: give one of {', '.join(KINDS)} and a name; --help says more", file=sys.stderr)
        return 4
    try:
        rules = importlib.import_module(f"bajofeki_import.{words[0]}").rules_of(words[1])
    except (OSError, ValueError, ImportError, AttributeError, LookupError) as error:
        print(f"bajofeki-import: {words[1]}: {error}", file=sys.stderr)
        return 2
    sys.stdout.buffer.write(rules.text().encode(errors="replace"))  # Rules are UTF-8 wherever one is.
    print(f"bajofeki-import: {rules.summary()}", file=sys.stderr)
    return int(rules.left > 0)


if __name__ == "__main__":
    sys.exit(main())
