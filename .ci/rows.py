"""Reads and runs the commands of examples/sessions. The file lexdfa there says how they are written."""
import os
import re
import subprocess
import sys
import tempfile
from collections import namedtuple
from contextlib import contextmanager
from pathlib import Path

TOP = Path(__file__).resolve().parent.parent
# The programs as rt ci leaves them in out/, built by LLVM and by Rattle's own compiler.
BUILDS = ("", ".by-rattle")
# `mark` is what the command is marked with. `wanted` is what is written, what is said on standard error, and the exit status.
Row = namedtuple("Row", "mark command given wanted")


def rows(file):
    for row in re.split(r"^(?=[$%&] )", (TOP / "examples/sessions" / file).read_text(), flags=re.M)[1:]:
        said = dict.fromkeys("$%&<>!=#", "")
        for mark, _, text in (it.partition(" ") for it in row.splitlines() if it):
            said[mark[0]] += text + "\n" * (mark in "<>!")
        given, out, message = (said[it].encode() for it in "<>!")
        yield Row(row[0], said[row[0]], given, (out, message, int(said["="] or 0)))


@contextmanager
def folder(build):
    """A folder for the commands of a file, and the environment in which the programs' names stand for this build."""
    with tempfile.TemporaryDirectory(prefix="rows-") as at, tempfile.TemporaryDirectory(prefix="programs-") as programs:
        for name in ("lexdfa", "tokens", "guide"):
            os.symlink(TOP / "crates" / name / "out" / (name + build), f"{programs}/{name}")
        yield at, {**os.environ, "TOP": str(TOP), "PATH": f"{programs}:{os.environ['PATH']}"}


def ran(words, given, at, env, **more):
    """What a command comes to."""
    done = subprocess.run(words, input=given, capture_output=True, cwd=at, env=env, timeout=300, **more)
    return done.stdout, done.stderr, done.returncode


def told(found):
    """Prints these pairs of a title and what is wrong, if anything is, and 'N passed, M failed'; the status is 1 where one fails."""
    failed = [print(title + f"\n  {wrong}" * bool(wrong), flush=True) or bool(wrong) for title, wrong in found]
    print(f"{failed.count(False)} passed, {failed.count(True)} failed")
    sys.exit(any(failed))
