r"""Pages of random texts hold the text, and what `tokens` says of it; pages of rules hold what a check finds. In none anything acts, or is
invisible.

>>> for seed in range(20):
...     check_text(random_text(random.Random(seed)))
>>> check_text(b"ab (")
>>> lines = [[]]
>>> put(lines, '<mark id="F1">', "?\n\nb", "</mark>")
>>> lines
[['<mark id="F1">?<i title="LF">LF</i></mark>'], ['<mark><i title="LF">LF</i></mark>'], ['<mark>b</mark>']]
>>> for path in (*TOP.glob("examples/clash*/names.rules"), *TOP.glob("examples/named/[n]*/*.rules")):
...     check_rules(path.read_bytes())
>>> check_rules(LEAST, ['"b"', f'"{60 * "a"}"', " ..", "no text", '"00"', '"', "U+00AD", '"'])
>>> check_errors()
"""
import json
import os
import random
import re
import shutil
import subprocess
import sys
import tempfile
import unicodedata
from html.parser import HTMLParser
from pathlib import Path
from unittest import mock
from xml.etree import ElementTree

from bajofeki import check
from bajofeki_report import CONTROLS, UNSEEN, check_page, put, text_page

HOME = Path(__file__).resolve().parent
TOP = HOME.parent.parent
TOKENS = TOP / "crates/tokens/out/tokens"
RULES = """[*]
SPACE skip = / +/
[A]
FEED skip = /\\n+/
[A B]
NAME = /[a-zé😀\\x{200b}\\x{5d0}-\\x{5ea}]+/
OPEN push B = '('
TEXT mode B = from '"' to '"'
[B]
CLOSE pop = ')'
CLOSE pop pop push A mode B = '))'
"""
LEAST = b"B = 'b'\nA = /a{70}(b+c)?/\nB = /[a&&b]/\nD part = /[0-9]/\n[M]\nC skip = 1 /{D}{2}|\xc2\xad0/\r\nC = 0 /\xc2\xad/"
PARTS = 'ab é 😀 ( ( ) )) " "" "<b>&lt;" > & \'] \0 \x1b \x7f \x85 \u202e \u2066 \u200b \u05d0\u05d1 \u0301 \ufe0f \u3164 \ufeff'.split(" ")
PARTS = [it.encode() for it in (*PARTS, " ", "\n", "\n\n", "\t", "\r\n", "\u2028")] + [b"\xff", b"\xe2\x80"]
TITLE = re.compile(r"(?:(\w+), (skipped)?.*?|no rule matches )mode (\w+), (\d+):(\d+)")
OPEN = r"ends in mode {}, entered at .*>{}:{}<"
ATTRIBUTES = "charset class content href http-equiv id lang name open style tabindex title translate".split()


class Page(HTMLParser):
    """A page that is read: its text without numbers of lines, the titles of pieces, least texts, classes and images."""

    def __init__(self, html):
        super().__init__()
        self.open, self.ids, self.links, self.classes, self.titles, self.least, self.text = [], [], [], [], {}, [], bytearray()
        assert all(it.isprintable() or it in "\t\n" for it in html) and not UNSEEN.search(html)
        self.images = [ElementTree.fromstring(it) for it in re.findall("<svg.*?</svg>", html, re.S)]
        assert not any("id" in it.attrib for image in self.images for it in image.iter())
        self.feed(re.sub("<svg.*?</svg>", "", html, flags=re.S))
        assert self.open == [] and len({*self.ids}) == len(self.ids) and {*self.links} <= {*self.ids}

    def handle_starttag(self, tag, attributes):
        found = dict(attributes)
        assert {*found} <= {*ATTRIBUTES} and tag != "script"
        self.open += [tag] * (tag not in ("meta", "td", "th", "tr"))
        self.ids += filter(None, [found.get("id")])
        self.links += filter(None, [found.get("href", "")[1:]])
        self.classes.append(found.get("class", ""))
        if tag in ("mark", "span") and "title" in found:
            self.titles[found["title"]] = None

    def handle_endtag(self, tag):
        assert self.open.pop() == tag

    def handle_data(self, data):
        assert unicodedata.category(data[0])[0] != "M"
        if {"pre", "small"} <= {*self.open}:
            self.least.append(data)
        elif "pre" in self.open and not {"a", "div"} & {*self.open}:
            self.text += unshown(data) if self.open[-1] == "i" else data.encode()


def unshown(form):
    """The bytes that a form stands for; none for a line feed, after which the line ends."""
    if form in CONTROLS:
        return bytes([CONTROLS.index(form)]).strip(b"\n")
    number = int(form[2:], 16)
    return bytes([number]) if form[0] == "\\" else chr(number).encode()


def run(*words, at):
    return subprocess.run(words, cwd=at, capture_output=True, encoding="utf-8")


def random_text(chance):
    return b"".join([chance.choice((b"", "\ufeff".encode())), *chance.choices(PARTS, k=chance.randint(0, 60))])


def check_text(data):
    html, status = text_page(RULES.encode(), "a\u202e.rules", data, "<i>\u202e\n")
    page, text = Page(html), data[3:] if data[:3] == "\ufeff".encode() else data
    assert page.text == text + b"\n" * (text[-1:] != b"\n"), (page.text, text)
    with tempfile.TemporaryDirectory() as at:
        Path(at, "rules").write_text(RULES)
        Path(at, "text").write_bytes(data)
        done = run(TOKENS, "--recover", "--json", "rules", "text", at=at)
    wanted = [tuple(json.loads(it)[name] for name in ("rule", "mode", "line", "column")) for it in done.stdout.split("\n")[:-1]]
    found = [(it[1], it[3], int(it[4]), int(it[5])) for it in map(TITLE.fullmatch, page.titles) if not it[2]]
    assert found == wanted and status == done.returncode, (data, found, wanted)
    ends = re.search(r":(\d+):(\d+): the text ends in mode (\w+),", done.stderr)
    assert not ends and "ends in" not in html or re.search(OPEN.format(ends[3], ends[1], ends[2]), html), (data, done.stderr)


def check_rules(rules, least=None):
    found = [json.loads(it) for it in check(rules, "", True).findings]
    said = [it for it in found if it["kind"] != "automaton"]
    for path in (os.environ["PATH"], ""):
        with mock.patch.dict(os.environ, PATH=path):
            html, status = check_page(rules, "my.rules")
            most = 64 if shutil.which("dot") else -1
        page = Page(html)
        assert sum(it[:3] == "box" for it in page.classes) == len(said) and status == bool(said)
        assert len(page.images) == sum(it.get("least_states", 65) <= most for it in found)
        assert page.text.strip(b"\n") == rules.replace(b"\r", b"").strip(b"\n")
        assert least in (None, page.least), page.least


def check_errors():
    files = {"good": b"A = 'a'\n", "line": b"A = 'a'\nB\n", "bytes": b"A = '\xff'\n", "look": b"A = /^/\n", "none": b""}
    files["clash"] = b"A = 'a'\nB = 'a'\n"
    cases = {
        ("good", "good"): (1, ""),
        ("--check", "clash"): (1, ""),
        ("clash", "good"): (2, 'clash:2:6: B clashes with A of line 1: both match "a", and neither wins'),
        ("--check", "look"): (2, "look:1:6: a lexer can't have look-around"),
        ("none", "good"): (2, "none: warning: there is no rule"),
        ("line", "good"): (3, "line:2:2: "),
        ("--check", "bytes"): (3, "bytes:1:6: this isn't UTF-8"),
        ("good", "lacks"): (6, "lacks: No such file or directory"),
        ("--check", "."): (6, ".: Is a directory"),
    }
    with tempfile.TemporaryDirectory() as at:
        for name, data in files.items():
            Path(at, name).write_bytes(data)
        for words, (status, said) in cases.items():
            done = run(sys.executable, "-B", "-m", "bajofeki_report", *words, at=at)
            assert (done.returncode, done.stdout == "") == (status, status > 1), (words, done)
            assert done.stderr.startswith(f"bajofeki-report: {said}") if said else done.stderr == "", (words, done.stderr)
        assert run(sys.executable, "-B", "-m", "bajofeki_report", "good", at=at).returncode == 4
    assert "more than 1024 modes" in text_page(b"A push INITIAL = 'a'", "", 1100 * b"a", "")[0]
