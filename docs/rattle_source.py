"""Reads sources of Rattle, as rt fmt lays them out: an item begins its line. Comments, strings and characters count as no code. `theirs` gives
what a user's program can call, library by library, and `seen` what a user sees of an item."""
import functools
import itertools
import re
from collections import namedtuple
from pathlib import Path

TOP = Path(__file__).resolve().parent.parent
# Each library, with the crates below it.
LIBRARIES = {name: below.split() for name, below in re.findall(r"^(lalrpop_\w+|\w+_lib|bajofeki\w*)(?: \w+)?:(.*)", (TOP / "crates.txt").read_text(), re.M)}
# `kind` is fn, impl, trait, struct, enum, type, mod or use; `name` is its name, an impl's type, or what a `use` says.
Item = namedtuple("Item", "kind name trait is_public text about functions ghosts file")
# `text` is the head and the clauses, without comments.
Function = namedtuple("Function", "name is_public text about")
TYPES = ("struct", "enum", "trait")
# What an impl says to the prover, or of the representation: laws with their proofs, invariants, views and codes.
UNSEEN = set("Value view invariant coded inverse laws total matches_eq matches_partial_cmp size size_decreases list_written"
             " list_unwritten other_lists_kept run_in run_out".split())

NO_CODE = re.compile(r"""//[^\n]*|/\*.*?\*/|(?<!\w)r(#*)".*?"\1|"(?:\\.|[^"\\])*"|(?<![\w'])b?'(?:\\.[^'\n]*|[^\\'\n])'""", re.S)
BEFORE = r"(?:#\[[^\n]*?\] *)*(pub(?:\([^)]*\))? )?(?:const |unsafe |extern +)*"
ITEM = re.compile(rf"^{BEFORE}(?:(use) ([^;]*)|(fn|impl|trait|struct|enum|type|mod)\b([^{{;]*))", re.M)
FUNCTION = re.compile(rf"^ *{BEFORE}fn (\w+)", re.M)
BRACE = re.compile(r"\{|;$", re.M)
CLAUSE = re.compile(r"\b(?:requires|ensures|ghost \w+:)")
GHOST = re.compile(r"^ *ghost (?!use\b)(\w+)[^{;]*\{", re.M)
ABOUT = re.compile(r"((?:^ *///[^\n]*\n)+)(?: *#\[[^\]]*\]\n)*\Z", re.M)


def closed(code, at):
    """Where the brace closes that opens before this place."""
    depths = itertools.accumulate(({"{": 1, "}": -1}.get(it, 0) for it in code[at:]), initial=1)
    return at + next(place for place, depth in enumerate(depths) if not depth)


def body(code, at):
    """Where the body of a function begins: at the first brace that no clause has, or the `;` of one without a body."""
    while CLAUSE.search(code, at, (brace := BRACE.search(code, at).start())):
        at = closed(code, brace + 1)
    return brace


def plain(text):
    """The text without comments, blank lines and the indentation of its first line."""
    lines = [it.rstrip() for it in NO_CODE.sub(lambda it: "" if it[0][0] == "/" else it[0], text).split("\n") if it.strip()]
    return "\n".join(it[len(lines[0]) - len(lines[0].lstrip()) :] for it in lines)


def about(text, start):
    """The lines of the comment before this place."""
    found = ABOUT.search(text[: text.rfind("\n", 0, start) + 1])
    return [it.strip()[4:] for it in found[1].splitlines()] if found else []


@functools.cache
def items(file):
    """The items of a file."""
    text, found = file.read_text(), []
    code = NO_CODE.sub(lambda it: re.sub(r"[^\n]", " ", it[0]), text)
    starts = [*ITEM.finditer(code)]
    for item, end in zip(starts, [it.start() for it in starts[1:]] + [len(code)]):
        kind, head = item[2] or item[4], item[3] or item[5]
        while kind == "impl" and (shorter := re.sub(r"<[^<>]*>", "", head)) != head:
            head = shorter
        trait, _, name = head.rpartition(" for ") if kind == "impl" else ("", "", head)
        name = name if kind == "use" else re.match(r"\s*(?:&(?:'\w+ )?(?:mut )?)?\[?(?:\w+::)*(\w+)", name)[1]
        last = closed(code, item.end() + 1) if code[item.end()] == "{" else item.end()
        functions = [Function(it[2], it[1] == "pub ", plain(text[it.start() : body(code, it.end())]), about(text, it.start())) for it in FUNCTION.finditer(code, item.start(), end)]
        ghosts = {it[1]: plain(text[it.start() : closed(code, it.end())]) for it in GHOST.finditer(code, item.start(), end)}
        found.append(Item(kind, name, trait.strip(), item[1] == "pub ", text[item.start() : last], about(text, item.start()), functions, ghosts, file))
    return found


def handed_out(file, wanted=None):
    """What a module hands out, or what it hands out by this name: pairs of a crate and a name."""
    folder = file.parent if file.stem == "lib" else file.with_suffix("")
    for item in (it for it in items(file) if it.is_public):
        if item.kind != "use" and wanted in (None, item.name):
            yield from handed_out(folder / f"{item.name}.rt") if item.kind == "mod" else [(file.relative_to(TOP).parts[1], item.name)]
        path, brace, names = item.name.partition("{")
        for name in re.findall(r"\w+", names) if brace else [""] * (item.kind == "use"):
            module, *below = (path + name).split("::")
            found = next((it for it in (TOP / "crates" / module / "src/lib.rt", folder / f"{module}.rt") if it.is_file()), None)
            yield from handed_out(found, *below) if found and wanted in (None, *below[-1:]) else []


@functools.cache
def of_users():
    """What a user's program can call: what lalrpop_lexer and the libraries that it doesn't need hand out, patterns and rules."""
    below = {*LIBRARIES["lalrpop_lexer"], "bajofeki_c"} - {"lalrpop_re", "bajofeki_rules"}
    return {it for crate in LIBRARIES if crate not in below for it in handed_out(TOP / "crates" / crate / "src/lib.rt")}


def theirs():
    """The libraries with items that users see, each with those: what is declared, followed by its impls. Of bajofeki_c, the exports."""
    for crate in LIBRARIES:
        found = [it for path in sorted(TOP.glob(f"crates/{crate}/src/**/*.rt")) for it in items(path)]
        found = [it for it in found if (crate, it.name) in of_users() or it.kind == "fn" and it.name.startswith("bajofeki_")]
        declared = [it.name for it in found if it.kind != "impl"]
        if found:
            yield crate, sorted(found, key=lambda it: (declared.index(it.name), it.kind == "impl"))


def seen(item):
    """What users see of an item of theirs: titles, each with a comment and with code, which is a promise to them."""
    said = [f"{text};" for name, text in item.ghosts.items() if name not in UNSEEN]
    if item.is_public and item.kind in (*TYPES, "type"):
        is_open = item.kind in ("enum", "type") or item.kind == "struct" and re.search(r"\n    pub |\(pub ", item.text)
        yield item.name, item.about, item.text if is_open else "\n".join(said * (item.kind == "trait"))
    if item.trait not in ("", "Model"):
        said = re.findall(r"^    (type [^\n]*;)", item.text, re.M) + said + [it.text for it in item.functions if "ensures" in it.text]
        yield from [(f"{item.trait} for {item.name}", item.about, "\n".join([re.split(r" \{|\n", item.text)[0], *said]))] if said else []
    for it in (it for it in item.functions if not item.trait and (it.is_public or item.kind == "trait")):
        yield it.name if item.kind == "fn" else f"{item.name}::{it.name}", it.about, it.text


# The code of a lexer in Rust is DRIVER in this file, the text of the functions of DRIVEN; that in C is `c_text.rt` beside it.
RUST = TOP / "crates/lalrpop_emit/src/rust_text.rt"
DRIVEN = ("driver", "longest_match", "ahead_columns", "ahead_rows", "flag_ends", "ahead_driver")
RUST_FUNCTION = re.compile(r"^(?:(?://|#\[)[^\n]*\n)*fn (\w+).*?^}\n", re.M | re.S)
C_FUNCTION = re.compile(r"^(?:/\*(?:(?!\*/).)*\*/\n)?[$\w][^\n;]*?\$_(\w+)\([^;]*?\) \{\n.*?^\}\n", re.M | re.S)


def driven(name):
    """What follows the last `use` of the file, without contracts, labels and `pub(crate)`."""
    text = (RUST.parent / f"{name}.rt").read_text()
    text = re.sub(r"\A.*\n(?:ghost )?use [^\n]*;\n\n", "", text, flags=re.S)
    text = re.sub(r"\n    (?:requires|ensures) .*?\n\{\n", " {\n", text, flags=re.S)
    return re.sub(r"pub\(crate\) |(?<=//)/|'\w+: ", "", text)


def driver_beside():
    """Each function of a lexer in C beside those of Rattle that it stands for: the one of its name, and those before that C lacks."""
    c_text = re.sub(r"\\(.)", r"\1", (RUST.parent / "c_text.rt").read_text())
    c, before = {it[1].replace("fault_piece", "fault"): it[0] for it in C_FUNCTION.finditer(c_text)}, ""
    for it in RUST_FUNCTION.finditer("\n".join(map(driven, DRIVEN))):
        before += it[0] + "\n" * (it[1] not in c)
        if it[1] in c:
            yield it[1], c.pop(it[1]), before
            before = ""
    yield "In C without a proved one", "\n".join(c.values()), ""
