"""Prints a table of prices: '{' and '}' mean nothing here."""
import re
from dataclasses import dataclass, field

WIDTH, RATE = 0x2A, 1_000.5e-3
WORD = re.compile(r"[^\W\d]+(?:'\w+)*")


@dataclass
class Row:
    name: str
    cents: int = 0
    tags: dict[str, float] = field(default_factory=lambda: {"sum": .0})

    def line(self, width: int, *, sign='€') -> str:
        price = self.cents / 100
        return f"{self.name:<{width}} {price:>{width - 4}.2f}{sign}"


def table(rows, title=None):
    if title is not None and (words := WORD.findall(title)):
        yield f'{" ".join(f"{word!r}" for word in words)}\t{len(words) != 1}'
    for number, row in enumerate(rows, 1):
        yield f"""{number:03}: {row.line(WIDTH // 2 + 1)}
{{{row.tags["sum"] if "sum" in row.tags else -1j}}} "quoted" {(lambda n: n ** 2)(number)=}"""


def pattern(name, width=0o12):
    note = f'''{name!r} isn't {{empty}}: it's at most ''{width:_>{width}}'' \N{EM DASH} or \'\'\'{"".join(f"{c}" for c in name)}'''
    return re.compile(rf"\N{name}\.{{1,{width}}}\"$"), Rf'^\{name}' fR'''\''{note}''' F"\{name}\N{BULLET}\t" rf""""{name}\""""


def main():
    rows = [Row("tea", 350), Row('br\'ead', 4_20, {'sum': 7.})]
    print(*table(rows, "Today's prices"), sep="\n")  # a comment with f"{"
    return not rows \
        or rows[-1].cents <= 0b11


if __name__ == "__main__":
    main()
