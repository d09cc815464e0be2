"""Whatever the parts of a file are, examples/corpus/corpus.py writes of them what `tokens` writes of the whole.

>>> chance = random.Random(20261201)
>>> sum(check(chance, *named(chance)) for _ in range(60)) > 50
True
>>> sum(check(chance, cases.rules(chance).encode(), cases.text(chance).encode()) for _ in range(200)) > 50
True
>>> every = "".join(chr(it) for it in range(0x110000) if not 0xD800 <= it < 0xE000)
>>> check(chance, rb"A = /(?s:.{1,40})/", every.encode()) >= 0
True
>>> check_changed()

As a program it cuts on Dask, of which it kills a worker.
"""
import os
import random
import signal
import subprocess
import sys
from functools import partial
from pathlib import Path
from tempfile import TemporaryDirectory

TOP = Path(__file__).resolve().parent.parent.parent
TOKENS, CORPUS, NAMED = TOP / "crates/tokens/out/tokens", TOP / "examples/corpus/corpus.py", TOP / "examples/named"
sys.path += [str(TOP / "bindings"), str(CORPUS.parent)]
import cases
import corpus
from bajofeki import Lexer, RulesError


def by_tokens(*words):
    return subprocess.run([TOKENS, "--quiet", "--recover", "--json", *words], capture_output=True).stdout


def named(chance):
    """The rules of an example, and its text in another order, with some bytes that aren't UTF-8."""
    args = chance.choice(sorted(NAMED.glob("*/args")))
    rules, text = (args.with_name(it).read_bytes() for it in args.read_text().split())
    lines = text.splitlines(keepends=True)
    return rules, b"".join(chance.sample(lines, len(lines))[:60]).replace(b"\xc3", chance.choice([b"\xc3", b"\xff"]))


def check(chance, rules, text):
    """How many cuts beyond one a part were needed."""
    with TemporaryDirectory() as folder:
        paths = [Path(folder, it) for it in ("rules", "text")]
        for path, data in zip(paths, (rules, text)):
            path.write_bytes(data)
        try:
            lexer = Lexer(rules)
        except RulesError:
            return 0
        cuts = []

        def submit(*job):
            cuts.append(job)
            return corpus.cut(lexer, paths[1], "", *job)

        parts = corpus.planned(paths[1], chance.choice([1, 20, 100, 500]))
        waiting = [partial(submit, parts[n : n + 2], part.start) for n, part in enumerate(parts)]
        assert b"".join(block for block, _ in corpus.joined(submit, parts, waiting)) == by_tokens(*paths)
        return len(cuts) - len(parts)


def check_changed():
    """A file that changes after it was seen."""
    with TemporaryDirectory() as folder:
        path = Path(folder, "text")
        path.write_bytes(b"a\nb\nc\n")
        parts = corpus.planned(path, 1)
        submit = partial(corpus.cut, Lexer(b"A = /[a-z]/\n"), path, "")
        path.write_bytes(b"a\nb\nd\n")
        blocks = corpus.joined(submit, parts, [partial(submit, parts[n : n + 2], part.start) for n, part in enumerate(parts)])
        assert next(blocks)[1] == 2
        try:
            list(blocks)
            raise AssertionError("lines of a text that isn't there")
        except OSError as error:
            assert str(error) == "it has changed"


def check_on_dask():
    """A worker is killed once a part was cut; a scheduler isn't there."""
    from distributed import LocalCluster

    start = [sys.executable, "-B", CORPUS, "--part", "50000", "--scheduler"]
    rules, text = NAMED / "c/c.rules", NAMED / "c/histogram.c"
    soon = {**os.environ, "DASK_DISTRIBUTED__COMM__TIMEOUTS__CONNECT": "1s"}
    alone = subprocess.Popen([*start, "127.0.0.1:1", rules, text], env=soon, stdout=subprocess.PIPE, stderr=subprocess.PIPE, text=True)
    with TemporaryDirectory() as folder, LocalCluster(3, threads_per_worker=1, host="127.0.0.1", dashboard_address=None) as cluster:
        large = Path(folder, "large.c")
        large.write_bytes(200 * text.read_bytes())
        with subprocess.Popen([*start, cluster.scheduler_address, rules, large, text], stdout=subprocess.PIPE) as run:
            lines = run.stdout.read(1)
            os.kill(cluster.workers[0].pid, signal.SIGKILL)
            lines += run.stdout.read()
        assert (run.wait(), lines) == (0, by_tokens(rules, large, text))
    said = alone.communicate()
    assert (said, alone.returncode) == (("", "corpus: Timed out trying to connect to tcp://127.0.0.1:1 after 1 s\n"), 1), said


if __name__ == "__main__":
    check_on_dask()
