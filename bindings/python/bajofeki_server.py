"""A language server for files of rules, and for the texts that they cut: `python3 -m bajofeki_server` speaks the Language Server Protocol
(version 3.17) on standard input and output.

Of a file of rules, which has the language `bajofeki` or a name that ends with .rules, it shows while one types what `tokens --check` finds,
and at a rule the least text that it matches. Of a text whose language has rules it shows where none matches, and gives semantic tokens; the
client names those rules as `initializationOptions`:

    {"rules": {"calculator": "/home/me/calculator.rules"}}
"""
import functools
import json
import re
import resource
import sys
import threading
from concurrent.futures import ThreadPoolExecutor
from pathlib import Path

from bajofeki import Columns, Document, Kind, Lexer, Outcome, RulesError, RulesErrorKind, check
from bajofeki_words import kind_of

# Of the kinds of rules the types of the protocol. Others have none.
TYPES = {
    "Keyword": "keyword",
    "Keyword.Constant": "keyword",
    "Keyword.Type": "type",
    "Name": "variable",
    "Name.Variable": "variable",
    "Name.Function": "function",
    "Name.Attribute": "property",
    "Name.Decorator": "decorator",
    "Name.Tag": "class",
    "Number": "number",
    "Number.Integer": "number",
    "Number.Float": "number",
    "Number.Hex": "number",
    "String": "string",
    "String.Char": "string",
    "String.Regex": "regexp",
    "String.Escape": "string",
    "Comment": "comment",
    "Comment.Preproc": "macro",
    "Operator": "operator",
}
LEGEND = sorted(set(TYPES.values()))
KINDS = tuple(Kind)
PARSE_ERROR, INVALID_REQUEST, NO_METHOD, FAILED, NOT_INITIALIZED = -32700, -32600, -32601, -32603, -32002
ERROR, WARNING = 1, 2
MOST = 100  # faults that are shown of a text
MEMORY = 4 << 30  # bytes that the server may take: some rules ask for more than any machine has
# A line of a check: a place in the file `rules`, and what is said of it.
FOUND = re.compile(r"(?:tokens: )?rules:(?:(\d+):)?(?:(\d+):)? (warning: )?(.*)")
# A rule or a part: its name, what stands before the sign, and its text.
RULE = re.compile(r"\s*(\w+)\b([^=]*)=(.*)")
# A text of any characters, as one whose lines are found.
LINES = Lexer("LINE = /[^\\n]+/\nFEED = /\\n/\n")


@functools.lru_cache(maxsize=None)
def type_of(rule):
    """The number of the type that the tokens of a rule with this name have; None if they have none.

    >>> LEGEND[type_of("LINE_COMMENT")], type_of("SPACE")
    ('comment', None)
    """
    kind = TYPES.get(kind_of(rule))
    return kind and LEGEND.index(kind)


def width(part, columns):
    """How many columns a str takes.

    >>> width("a\\U0001f600", Columns.UTF16), width("a\\U0001f600", Columns.BYTES)
    (3, 5)
    """
    if part.isascii() or columns is Columns.CHARACTERS:
        return len(part)
    return len(part.encode("utf-8")) if columns is Columns.BYTES else len(part.encode("utf-16-le")) // 2


def whole(text):
    """A text of a client, where U+FFFD stands for each surrogate that is alone."""
    return text.encode("utf-16-le", "surrogatepass").decode("utf-16-le", "replace")


class Text:
    """An open text. Its places are those of the protocol, which count from 0."""

    def __init__(self, lexer, text, columns):
        text = whole(text)
        self.document, self.columns = Document(lexer, text), columns
        kinds, _, ends = lexer.arrays(text)
        self.faults = [start for kind, start in zip(kinds, (0, *ends)) if KINDS[kind] is Kind.FAULT]
        if kinds and KINDS[kinds[-1]] is Kind.TOO_DEEP:
            # Modes of a document may lie deeper.
            self.faults = self.faults_between(0, len(self.document))

    def faults_between(self, start, end):
        return [it.start for it in self.document.pieces(start, end) if it.kind is Kind.FAULT]

    def edit(self, start, end, new):
        """Replaces what stands from one offset to another, and finds the faults anew where pieces changed."""
        change = self.document.edit(start, end, whole(new))
        found = self.faults_between(change.start, change.new_end)
        before = [at for at in self.faults if at < change.start]
        after = [at + change.new_end - change.old_end for at in self.faults if at >= change.old_end]
        self.faults = before + found + after

    def offset(self, place):
        """The offset of a place. One that is past the end of its line is that end."""
        line = place["line"] + 1
        try:
            return self.document.offset(line, place["character"] + 1, self.columns)
        except ValueError:
            return self.end_of(line)

    def end_of(self, line):
        """Where a line ends; the end of the text, if it has no line after it."""
        try:
            return self.document.offset(line + 1, 1) - 1
        except ValueError:
            return len(self.document)

    def change(self, change):
        """Does what an entry of `contentChanges` says."""
        start, end = (self.offset(change["range"][it]) for it in ("start", "end")) if "range" in change else (0, len(self.document))
        self.edit(start, max(start, end), change["text"])

    def place(self, offset):
        line, column = self.document.place(offset, self.columns)
        return {"line": line - 1, "character": column - 1}

    def findings(self):
        """The first faults, as diagnostics."""
        for piece in map(self.document.piece_at, self.faults[:MOST]):
            shown = json.dumps(piece.text[:20], ensure_ascii=False) + " .." * (len(piece.text) > 20)
            yield diagnostic(self.place(piece.start), self.place(piece.end), ERROR, f"no rule matches {shown}")

    def tokens(self, start, end):
        """The semantic tokens that hold a byte from one offset to another, as the protocol has them: relative to one another."""
        pieces, data, last = self.document.pieces(start, end), [], (0, 0)
        line, column = self.document.place(pieces[0].start, self.columns) if pieces else (1, 1)
        for piece in pieces:
            kind = type_of(piece.rule) if piece.rule else None
            for number, part in enumerate(piece.text.split("\n")):
                line, column = (line + 1, 1) if number else (line, column)
                size = width(part, self.columns)
                if kind is not None and size:
                    place = line - 1, column - 1
                    data += [place[0] - last[0], place[1] - (last[1] if place[0] == last[0] else 0), size, kind, 0]
                    last = place
                column += size
        return data


def diagnostic(start, end, severity, message):
    return {"range": {"start": start, "end": end}, "severity": severity, "source": "bajofeki", "message": message}


def findings(rules, columns):
    """What a check of rules finds, as diagnostics.

    >>> found = findings("IF = 'if'\\nIN = 1 /i[fn]/\\n", Columns.UTF16)
    >>> [(it["range"]["start"], it["severity"], it["message"]) for it in found]
    [({'line': 1, 'character': 8}, 1, 'IN clashes with IF of line 1: both match "if", and neither wins')]
    >>> findings("A = /(/", Columns.UTF16)[0]["message"], findings("A = 'a'", Columns.UTF16)
    ("this group isn't closed", [])
    """
    checked, lines, all_found = check(rules), rules.split("\n"), []
    for text in (*checked.findings, *checked.message.split("\n")[:-1]):
        found = FOUND.fullmatch(text)
        if found and (found[1] or found[3]):
            number, column = int(found[1] or 1), int(found[2] or 1)
            line = lines[number - 1].rstrip("\r")
            start, end = ({"line": number - 1, "character": width(it, columns)} for it in (line[: column - 1], line))
            severity = WARNING if checked.outcome in (Outcome.CLEAN, Outcome.FOUND) or found[3] else ERROR
            all_found.append(diagnostic(start, end, severity, found[4]))
        elif all_found and not text.startswith((" ", "rules:")):
            # What to do stands after the line that is shown.
            all_found[-1]["message"] += "\n" + text
    return all_found


def least_text(lines, text):
    """The least text that a rule with this text matches in a file of these lines; None if it is no text but the empty one, if any.

    >>> least_text(["D part = /[0-9]/"], "/{D}+/")
    '0'
    """
    parts = [it for it in lines if re.match(r"\s*\w+\s+part\s*=", it)]
    try:
        # Two rules with one pattern clash on its least text.
        Lexer("\n".join([*parts, f"FIRST ={text}", f"SECOND ={text}"]))
    except RulesError as error:
        if error.kind is not RulesErrorKind.CLASH:
            raise
        return error.word
    return None


def shown_rule(lines, number):
    """What is shown at a line of a file of rules; None if it is no rule.

    >>> shown_rule(["D part = /[0-9]/", "INT skip = /{D}+/"], 1)
    'INT is skipped. Its least text is "0".'
    """
    found = RULE.fullmatch(lines[number].rstrip("\r"))
    if not found:
        return None
    words = found[2].split()
    what = "is a part of patterns" if "part" in words else "is skipped" if "skip" in words else "is a token"
    try:
        word = least_text(lines, found[3])
    except RulesError:
        return None
    least = "It matches no text but the empty one, if any" if word is None else f"Its least text is {json.dumps(word, ensure_ascii=False)}"
    return f"{found[1]} {what}. {least}."


class Server:
    """Answers the messages of one client. `send` takes a message to it, and is called by several threads."""

    def __init__(self, send):
        self.send, self.columns, self.rules = send, Columns.UTF16, {}
        self.texts, self.versions, self.lexers = {}, {}, {}
        self.is_initialized, self.is_shut_down = False, False
        # A check may take long. It is done beside what is answered, and one is left out if the text has changed by then.
        self.checks = ThreadPoolExecutor(1)

    def take(self, message):
        """Answers one message."""
        method, number = message.get("method"), message.get("id")
        call = self.METHODS.get(method)
        try:
            if not self.is_initialized and method not in ("initialize", "exit"):
                raise Refused(NOT_INITIALIZED, "the first message isn't `initialize`")
            if call is None:
                raise Refused(NO_METHOD, f"there is no method {method}")
            result = call(self, message.get("params") or {})
        except Exception as error:
            code = error.code if isinstance(error, Refused) else FAILED
            answer = {"error": {"code": code, "message": str(error) or type(error).__name__}}
        else:
            answer = {"result": result}
        if number is not None and method is not None:
            self.send({"id": number, **answer})

    def initialize(self, params):
        wanted = (params["capabilities"].get("general") or {}).get("positionEncodings") or []
        self.columns = next((it for it in Columns if it.value in wanted), Columns.UTF16)
        self.rules = (params.get("initializationOptions") or {}).get("rules", {})
        self.is_initialized = True
        capabilities = {
            "positionEncoding": self.columns.value,
            "textDocumentSync": {"openClose": True, "change": 2},
            "hoverProvider": True,
            "semanticTokensProvider": {"legend": {"tokenTypes": LEGEND, "tokenModifiers": []}, "full": True, "range": True},
        }
        return {"capabilities": capabilities, "serverInfo": {"name": "bajofeki"}}

    def shut_down(self, params):
        self.is_shut_down = True

    def ignore(self, params):
        """There is nothing to do."""

    def open(self, params):
        it = params["textDocument"]
        uri, language = it["uri"], it["languageId"]
        lexer = self.lexer_of(self.rules[language]) if language in self.rules else LINES
        self.texts[uri] = Text(lexer, it["text"], self.columns)
        if language == "bajofeki" or uri.endswith(".rules"):
            self.versions[uri] = None
        self.show(uri, it["version"])

    def lexer_of(self, path):
        """The lexer of a file, which is read again once it has changed."""
        at = Path(path).stat().st_mtime_ns
        if self.lexers.get(path, (None,))[0] != at:
            self.lexers[path] = at, Lexer(Path(path).read_bytes())
        return self.lexers[path][1]

    def change(self, params):
        uri = params["textDocument"]["uri"]
        for it in params["contentChanges"]:
            self.texts[uri].change(it)
        self.show(uri, params["textDocument"]["version"])

    def close(self, params):
        uri = params["textDocument"]["uri"]
        self.versions.pop(uri, None)
        self.texts.pop(uri).document.close()
        self.publish(uri, [])

    def show(self, uri, version):
        """Shows what is wrong: with rules once they were checked, with a text at once."""
        if uri in self.versions:
            self.versions[uri] = version
            self.checks.submit(self.publish_check, uri, version, self.texts[uri].document.text)
        else:
            self.publish(uri, [*self.texts[uri].findings()], version=version)

    def publish_check(self, uri, version, rules):
        if self.versions.get(uri) != version:
            return
        try:
            found = findings(rules, self.columns)
        except MemoryError:
            start = {"line": 0, "character": 0}
            found = [diagnostic(start, start, ERROR, f"these rules need more than {MEMORY >> 30} GB of memory")]
        if self.versions.get(uri) == version:
            self.publish(uri, found, version=version)

    def publish(self, uri, found, **version):
        self.send({"method": "textDocument/publishDiagnostics", "params": {"uri": uri, "diagnostics": found, **version}})

    def hover(self, params):
        uri, line = params["textDocument"]["uri"], params["position"]["line"]
        lines = self.texts[uri].document.text.split("\n") if uri in self.versions else []
        said = shown_rule(lines, line) if line < len(lines) else None
        return said and {"contents": {"kind": "plaintext", "value": said}}

    def tokens(self, params):
        text = self.texts[params["textDocument"]["uri"]]
        start, end = (text.offset(params["range"][it]) for it in ("start", "end")) if "range" in params else (0, len(text.document))
        return {"data": text.tokens(start, end)}

    METHODS = {
        "initialize": initialize,
        "initialized": ignore,
        "shutdown": shut_down,
        "$/cancelRequest": ignore,
        "$/setTrace": ignore,
        "textDocument/didOpen": open,
        "textDocument/didChange": change,
        "textDocument/didClose": close,
        "textDocument/didSave": ignore,
        "textDocument/hover": hover,
        "textDocument/semanticTokens/full": tokens,
        "textDocument/semanticTokens/range": tokens,
    }


class Refused(Exception):
    """A request that gets an error with a code of the protocol."""

    def __init__(self, code, reason):
        super().__init__(reason)
        self.code = code


def messages(source, send):
    """The messages that come, up to the end. What isn't JSON gets an error."""
    while True:
        size = 0
        line = source.readline()
        while line.strip():
            name, _, value = line.partition(b":")
            size = int(value) if name.strip().lower() == b"content-length" else size
            line = source.readline()
        if not line:
            return
        try:
            message = json.loads(source.read(size))
        except ValueError as error:
            send({"id": None, "error": {"code": PARSE_ERROR, "message": str(error)}})
            continue
        if isinstance(message, dict):
            yield message
        else:
            send({"id": None, "error": {"code": INVALID_REQUEST, "message": "a message is one object"}})


def serve(source, sink):
    """Answers what comes by a stream until `exit` or its end. Gives the exit status: 0 after a shutdown."""
    lock = threading.Lock()

    def send(message):
        data = json.dumps({"jsonrpc": "2.0", **message}).encode()
        with lock:
            sink.write(b"Content-Length: %d\r\n\r\n%s" % (len(data), data))
            sink.flush()

    server = Server(send)
    for message in messages(source, send):
        if message.get("method") == "exit":
            break
        server.take(message)
    server.versions.clear()
    server.checks.shutdown(wait=server.is_shut_down)
    return int(not server.is_shut_down)


if __name__ == "__main__":
    most = resource.getrlimit(resource.RLIMIT_AS)[1]
    resource.setrlimit(resource.RLIMIT_AS, (MEMORY if most == resource.RLIM_INFINITY else min(MEMORY, most), most))
    sys.exit(serve(sys.stdin.buffer, sys.stdout.buffer))
