"""Cuts files by a file of rules on many machines, by Dask. Writes what `tokens --recover --json RULES FILE ..` does.

    dask-scheduler --host 127.0.0.1 --port 8786 & dask-worker 127.0.0.1:8786 --nworkers 3 --nthreads 1 &
    python3 corpus.py --scheduler 127.0.0.1:8786 RULES FILE .. >tokens.json

Each worker has the package `bajofeki`, and each FILE at the path that it has here. Without --scheduler this process does it all. Where
lines are missing, a message names the file and the byte from which on; other files are cut, and the status is 1. A byte order mark is text.
"""
import argparse
import sys
from collections import namedtuple
from functools import lru_cache, partial
from hashlib import blake2b
from itertools import accumulate, groupby
from json.encoder import encode_basestring_ascii as escaped
from pathlib import Path

from bajofeki import Kind, Lexer, Places, RulesError, Stream

Part = namedtuple("Part", "start end line digest")  # of a file: two offsets, the number of its first line, a hash of its bytes
SEEN = Lexer(r'SEEN = /[^\p{Cc}\p{Cn}\p{Default_Ignorable_Code_Point}\u{2028}\u{2029}"\\]+/')  # By the Unicode of `tokens`.


def quoted(text):
    """The string of JSON that `tokens` writes: all that isn't seen is escaped."""
    return escaped(text) if text.isascii() else f'"{"".join(it.text if it.rule else escaped(it.text)[1:-1] for it in SEEN.pieces(text))}"'


def act(stack, actions):
    """Does the actions of a token on the stack of modes."""
    for kind, mode in actions:
        is_gone = kind == "mode" or kind == "pop" and len(stack) > 1
        stack[len(stack) - is_gone :] = () if kind == "pop" else (mode,)


def planned(path, most):
    """The parts of a file, each of so many bytes and the rest of their last line, and an empty one for its end."""
    parts, start, line, data = [], 0, 1, b"\n"
    with open(path, "rb") as file:
        while data:
            data = file.read(most) + file.readline() if data.endswith(b"\n") else b""  # A log may grow.
            parts.append(Part(start, start + len(data), line, blake2b(data).digest()))
            start, line = start + len(data), line + data.count(b"\n")
    return parts


def pieces(lexer, path, parts, begin):
    """The pieces that these parts settle, from an offset in the first one on; and what finds the places in these parts."""
    data = b""
    with Stream(lexer) as stream, open(path, "rb") as file:
        file.seek(parts[0].start)
        for part in parts:
            read = file.read(part.end - part.start)
            if blake2b(read).digest() != part.digest:
                raise OSError("it has changed")
            stream.feed(read[max(begin - part.start, 0) :])
            if not read:
                stream.finish()
            places = Places(data := data + read)
            for piece in stream:
                yield piece, places


def cut(lexer, path, front, parts, begin, goals=()):
    """Cuts a file from a seam in the first part on up to the next that is a goal or past that part, or to the file's end. Gives the lines,
    where they end, and how many bytes of them come before each seam; nothing if these parts have no such seam."""
    first, has_modes = lexer.modes[0], len(lexer.modes) > 1
    stack, lines, size, seams = [first], [], 0, {begin: 0}
    for piece, places in pieces(lexer, path, parts, begin):
        start, end = begin + piece.start, begin + piece.end
        if piece.kind is not Kind.SKIPPED:
            line, column = places.at(start - parts[0].start)
            rule = (f'"{piece.rule}"' if piece.rule else "null") + f',"mode":"{stack[-1]}"' * has_modes
            place = f'"line":{line + parts[0].line - 1},"column":{column},"start":{start},"end":{end}'
            lines.append(f'{{{front}{place},"rule":{rule},"text":{quoted(piece.text)}}}\n'.encode())
            size += len(lines[-1])
        act(stack, lexer.rules[piece.number].actions if piece.rule else ())
        if stack == [first] or end == parts[-1].start == parts[-1].end:
            if end in goals or end >= parts[0].end:
                return b"".join(lines), end, seams
            if len(seams) < 1 << 12:  # More are hardly needed.
                seams[end] = size
    return b"", begin, {}


def joined(again, parts, waiting):
    """The lines of a file, in blocks, each with the offset of its end."""
    at = 0
    for number, part in enumerate(parts):
        try:
            lines, end, seams = waiting.pop(0)()
        except OSError:  # It may be of another file; that of this one comes again.
            lines, end, seams = b"", at, {}
        while at < part.end:
            block, at, _ = (lines[seams[at] :], end, {}) if at in seams else again(parts[number:], at, seams)
            yield block, at


def submitter(scheduler, rules, most):
    """What has parts cut, and gives functions that wait for what became of them. Small parts go together, up to about so many bytes."""
    if scheduler is None:
        lexer = Lexer(rules)
        return lambda jobs: [partial(cut, lexer, *job) for job in jobs]
    from distributed import Client
    client = Client(scheduler)
    lexer, result = client.submit(Lexer, rules), lru_cache(1)(lambda future: future.result())

    def submit(jobs):
        ends = accumulate(parts[0].end - parts[0].start for _, _, parts, *_ in jobs)
        groups = [[job for _, job in group] for _, group in groupby(zip(ends, jobs), lambda it: it[0] // most)]
        futures = client.map(lambda group, lexer: [cut(lexer, *job) for job in group], groups, lexer=lexer, pure=False)
        return [partial(lambda it, n: result(it)[n], it, n) for it, group in zip(futures, groups) for n in range(len(group))]

    return submit


def main():
    parser = argparse.ArgumentParser(description=__doc__.partition("\n")[0])
    parser.add_argument("--scheduler", metavar="ADDRESS")
    parser.add_argument("--part", type=int, default=1 << 20, metavar="BYTES", help="how much of a file a worker cuts at once")
    parser.add_argument("rules", metavar="RULES")
    parser.add_argument("files", metavar="FILE", nargs="+")
    given, status = parser.parse_args(), 0
    has_names = len(given.files) > 1
    try:
        submit = submitter(given.scheduler, Path(given.rules).read_bytes(), given.part)
        files = [(Path(path).absolute(), f'"file":{quoted(path)},' * has_names, planned(path, given.part)) for path in given.files]
    except (OSError, RulesError) as error:
        sys.exit(f"corpus: {error}")
    waiting = submit([(*file, parts[n : n + 2], part.start) for *file, parts in files for n, part in enumerate(parts)])
    for *file, parts in files:
        at, mine, waiting = 0, waiting[: len(parts)], waiting[len(parts) :]
        try:
            for block, at in joined(lambda *job: submit([(*file, *job)])[0](), parts, mine):
                sys.stdout.buffer.write(block)
        except Exception as error:  # Whatever kept the lines from coming.
            status = print(f"corpus: {file[0]}: from byte {at} on lines are missing: {error!r}", file=sys.stderr) or 1
    sys.exit(status)


if __name__ == "__main__":
    main()
