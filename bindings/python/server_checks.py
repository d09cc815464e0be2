r"""A client of the language server. What it shows of rules, which are typed a character at a time, is what `tokens --check` says, in Neovim
too, where that is there; the tokens of a text after random edits are those of a cut.

>>> for client in (Client(), Client("utf-8")):
...     with client:
...         check_typing(client)
>>> check_neovim()
>>> for seed, encoding in enumerate(("utf-16", "utf-32", "utf-8")):
...     with Client(encoding, mine=RULES) as client:
...         check_edits(client, random.Random(seed), encoding)
>>> with Client(deep="OPEN push INITIAL = '('\n") as client:
...     check_errors(client)
"""
import json
import os
import random
import shutil
import subprocess
import sys
import tempfile
from pathlib import Path

from bajofeki import Kind, Lexer
from bajofeki_server import ERROR, FOUND, LEGEND

HOME = Path(__file__).resolve().parent
TOKENS = HOME.parent.parent / "crates/tokens/out/tokens"
RULES = "LET_KEYWORD = 'let'\nNAME = /\\w+/\nTEXT = /\"[^\"]*\"/\nSPACE skip = /\\s+/\n"
TYPES = {"LET_KEYWORD": "keyword", "NAME": "variable", "TEXT": "string"}
UNITS = {"utf-8": ("utf-8", 1), "utf-16": ("utf-16-le", 2), "utf-32": ("utf-32-le", 4)}
TYPED = "# é\nD part = /[0-9]/\nIF = 'if'\nNAME = 1 /[a-z😀]+/\n(\n[M]\r\nB = /{D}/ # 'b'\nB = /(/"


class Client:
    """A client; `rules` are files of rules by the name of a language."""

    def __init__(self, encoding=None, **rules):
        self.folder, self.told, self.asked = tempfile.TemporaryDirectory(), [], 0
        paths = {language: Path(self.folder.name, language + ".rules") for language in rules}
        for language, text in rules.items():
            paths[language].write_text(text)
        self.options = {"rules": {language: str(path) for language, path in paths.items()}}
        self.general = {"general": {"positionEncodings": ["utf-7", encoding]}} if encoding else {}

    def __enter__(self):
        words = [sys.executable, "-B", "-m", "bajofeki_server"]
        self.process = subprocess.Popen(words, cwd=HOME, stdin=subprocess.PIPE, stdout=subprocess.PIPE)
        return self

    def start(self):
        return self.ask("initialize", capabilities=self.general, initializationOptions=self.options)["result"]

    def __exit__(self, *_):
        self.ask("shutdown")
        self.tell("exit")
        assert self.process.wait(10) == 0
        self.process.stdin.close()
        self.process.stdout.close()
        self.folder.cleanup()

    def write(self, message):
        data = message if isinstance(message, bytes) else json.dumps({"jsonrpc": "2.0", **message}).encode()
        self.process.stdin.write(b"content-length: %d\r\nContent-Type: x\r\n\r\n%s" % (len(data), data))
        self.process.stdin.flush()

    def read(self):
        size = int(self.process.stdout.readline().split(b":")[1])
        self.process.stdout.readline()
        return json.loads(self.process.stdout.read(size))

    def tell(self, method, **params):
        self.write({"method": method, "params": params})

    def ask(self, method, **params):
        self.asked += 1
        self.write({"id": self.asked, "method": method, "params": params})
        while True:
            answer = self.read()
            if answer.get("id") == self.asked:
                return answer
            self.told.append(answer)

    def open(self, uri, language, text):
        self.tell("textDocument/didOpen", textDocument={"uri": uri, "languageId": language, "version": 0, "text": text})

    def change(self, uri, version, change):
        self.tell("textDocument/didChange", textDocument={"uri": uri, "version": version}, contentChanges=[change])

    def found(self, uri="file:///my.rules"):
        """The next diagnostics of a text, with its version."""
        while True:
            for it in self.told:
                if it["params"]["uri"] == uri:
                    self.told.remove(it)
                    return it["params"].get("version"), it["params"]["diagnostics"]
            self.told.append(self.read())


def by_tokens(text):
    """The places that `tokens --check` finds, what it says of each, without the lines that it shows, and whether that is an error."""
    with tempfile.TemporaryDirectory() as at:
        Path(at, "rules").write_bytes(text.encode())
        done = subprocess.run([TOKENS, "--check", "rules"], cwd=at, capture_output=True, encoding="utf-8")
    found = map(FOUND.fullmatch, (done.stdout + done.stderr).split("\n"))
    return [(int(it[1] or 1), int(it[2] or 1), it[4], done.returncode > 1 and not it[3]) for it in found if it and (it[1] or it[3])]


def shown(text, diagnostics, units):
    """The same of diagnostics: columns are in characters, and only the first line of a message counts."""
    lines = text.split("\n")
    for it in diagnostics:
        line, column = it["range"]["start"]["line"], it["range"]["start"]["character"]
        column = len(lines[line].encode(units[0])[: units[1] * column].decode(units[0])) + 1
        yield line + 1, column, it["message"].split("\n")[0], it["severity"] == ERROR


def check_typing(client):
    units = UNITS[client.start()["capabilities"]["positionEncoding"]]
    client.open("file:///my.rules", "plaintext", "")
    assert client.found()[0] == 0
    line = column = 0
    for number, typed in enumerate(TYPED):
        place = {"line": line, "character": column}
        client.change("file:///my.rules", number + 1, {"range": {"start": place, "end": place}, "text": typed})
        version, found = client.found()
        text = TYPED[: number + 1]
        assert version == number + 1 and [*shown(text, found, units)] == by_tokens(text), (text, found, by_tokens(text))
        line, column = (line + 1, 0) if typed == "\n" else (line, column + len(typed.encode(units[0])) // units[1])
    hover = client.ask("textDocument/hover", textDocument={"uri": "file:///my.rules"}, position={"line": 2, "character": 0})
    assert hover["result"]["contents"]["value"] == 'IF is a token. Its least text is "if".', hover
    client.change("file:///my.rules", 1000, {"text": "A = 'a'\n"})
    assert client.found() == (1000, [])
    client.tell("textDocument/didClose", textDocument={"uri": "file:///my.rules"})
    assert client.found() == (None, [])


def check_neovim():
    if not shutil.which("nvim"):
        return
    with tempfile.TemporaryDirectory() as at:
        words = ["nvim", "--headless", "-u", "NONE", "-i", "NONE", "-n", "-c", f"luafile {HOME / 'server_checks.lua'}", "-c", "qa!"]
        env = {**os.environ, "TYPED": TYPED.replace("\r", ""), "FOUND": f"{at}/found", "PYTHONPATH": str(HOME)}
        done = subprocess.run([*words, "my.rules"], cwd=at, env=env, capture_output=True, encoding="utf-8", timeout=120)
        assert Path(at, "found").is_file(), done.stdout + done.stderr
        steps = json.loads(Path(at, "found").read_text())
    assert len(steps) == len(TYPED.replace("\r", ""))
    for text, found in steps:
        assert [*shown(text, found, UNITS["utf-16"])] == by_tokens(text), (text, found, by_tokens(text))


def random_place(chance, text, encoding):
    """A place in a text, sometimes past the end of its line, and its offset in characters."""
    at = chance.randint(0, len(text))
    line, start = text.count("\n", 0, at), text.rfind("\n", 0, at) + 1
    end = at == len(text) or text[at] == "\n"
    codec, unit = UNITS[encoding]
    return {"line": line, "character": len(text[start:at].encode(codec)) // unit + (chance.randint(0, 3) if end else 0)}, at


def tokens_of(client, uri):
    """Its semantic tokens: of each the line and the column from 0 on, the length, and the type."""
    data, found, line, column = client.ask("textDocument/semanticTokens/full", textDocument={"uri": uri})["result"]["data"], [], 0, 0
    for down, right, size, kind, _ in zip(*(data[at::5] for at in range(5))):
        line, column = line + down, right + (0 if down else column)
        found.append((line, column, size, LEGEND[kind]))
    return found


def tokens_by_lexer(text, encoding):
    """The same by a cut of the text."""
    codec, unit = UNITS[encoding]
    lines, width = text.split("\n"), lambda part: len(part.encode(codec)) // unit
    for piece in Lexer(RULES).pieces(text):
        for down, part in enumerate(piece.text.split("\n")):
            start = 0 if down else piece.column - 1
            if piece.kind is Kind.TOKEN and part:
                yield piece.line - 1 + down, width(lines[piece.line - 1 + down][:start]), width(part), TYPES[piece.rule]


def check_edits(client, chance, encoding):
    legend = client.start()["capabilities"]["semanticTokensProvider"]["legend"]["tokenTypes"]
    text = 'let x = "é\n😀" 1\n'
    client.open("file:///a", "mine", text)
    assert [it["message"] for it in client.found("file:///a")[1]] == ['no rule matches "="']
    assert legend == LEGEND and [it[3] for it in tokens_of(client, "file:///a")] == ["keyword", "variable", "string", "string", "variable"]
    for version in range(60):
        (start, at), (end, to) = sorted((random_place(chance, text, encoding) for _ in range(2)), key=lambda it: it[1])
        new = "".join(chance.choices('ab let("\né漢😀 ?', k=chance.randint(0, 6)))
        client.change("file:///a", version, {"range": {"start": start, "end": end}, "text": new})
        text = text[:at] + new + text[to:]
        client.open("file:///b", "mine", text)
        assert tokens_of(client, "file:///a") == [*tokens_by_lexer(text, encoding)], (text, version)
        assert client.found("file:///a") == (version, client.found("file:///b")[1]), (text, version)
        whole = {"start": {"line": 0, "character": 0}, "end": {"line": 99, "character": 0}}
        ranged = client.ask("textDocument/semanticTokens/range", textDocument={"uri": "file:///a"}, range=whole)
        assert ranged["result"] == client.ask("textDocument/semanticTokens/full", textDocument={"uri": "file:///a"})["result"]


def check_errors(client):
    assert client.ask("textDocument/hover")["error"]["code"] == -32002
    assert client.start()["capabilities"]["positionEncoding"] == "utf-16"
    client.write(b"{")
    assert client.read()["error"]["code"] == -32700
    client.write(b"[]")
    assert client.read()["error"]["code"] == -32600
    assert client.ask("textDocument/rename")["error"]["code"] == -32601
    assert client.ask("textDocument/hover", textDocument={"uri": "file:///none"}, position={"line": 0})["result"] is None
    assert client.ask("textDocument/semanticTokens/full", textDocument={"uri": "file:///none"})["error"]["code"] == -32603
    client.tell("$/cancelRequest", id=1)
    client.open("file:///my.rules", "plaintext", "A = /a{1000}{1000}{1000}/\n")
    assert client.found()[1][0]["message"] == "these rules need more than 4 GB of memory"
    client.open("file:///deep", "deep", "(" * 1100 + "?")
    assert client.found("file:///deep")[1][0]["range"]["start"] == {"line": 0, "character": 1100}
    client.open("file:///c", "none", "\ud800a")
    assert tokens_of(client, "file:///c") == [] and client.found("file:///c") == (0, [])
