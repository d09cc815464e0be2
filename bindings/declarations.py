"""What crates/bajofeki_c exports, and what the header, the Rust crate and the Python module declare of it: functions by name, each with
what it gives and takes, and structs by name, each with its fields. All in Rust's words; a lexer or a cutter is bytes. And what the stub of
the Python module says of its classes and functions, and what they are."""
import ast
import enum
import inspect
import re
from pathlib import Path

HOME = Path(__file__).resolve().parent
CRATE = HOME.parent / "crates/bajofeki_c/src"
WORDS = {"void": "", "char": "u8", "c_void": "u8", "uint32_t": "u32", "size_t": "usize", "NoneType": ""}
WORDS.update(dict.fromkeys(("bajofeki_lexer", "bajofeki_cutter", "bajofeki_document", "bajofeki_stream"), "u8"))
WORDS.update({"c_uint": "u32", "c_ulong": "usize", "c_bool": "bool", "c_void_p": "*u8", "c_char_p": "*u8"})


def word(name):
    """A type of C or Python in Rust's words: size_t is usize, bajofeki_piece_t is Piece."""
    return WORDS.get(name, re.sub(r"^bajofeki_(\w+)_t$", lambda it: it[1].capitalize(), name))


def structs(text):
    bodies = re.findall(r"#\[repr\(C\)\]\n#\[.*?\npub struct (\w+) \{(.*?)\n\}", text, re.S)
    return {name: re.findall(r"pub (\w+): (\w+),", body) for name, body in bodies}


def functions(text):
    """Functions of Rust or Rattle, where an array is a pointer and a length, and the allocator is nothing."""
    text = re.sub(r"&\[(\w+)\]", r"*const \1, x: usize", text.replace("c_void", "u8"))
    text = re.sub(r"&mut \[(\w+)\]", r"*mut \1, x: usize", re.sub(r"\w+: Global,?", "", text))
    found = re.findall(r"fn (bajofeki_\w+)\((.*?)\)(?: -> (\w+))?", text, re.S)
    return {name: (gives, re.findall(r"\w+: ([^,\n]+)", takes)) for name, takes, gives in found}


def of_rattle():
    return functions((CRATE / "lib.rt").read_text()), structs("".join(it.read_text() for it in sorted(CRATE.glob("*.rt"))))


def of_rust():
    text = (HOME / "rust/src/ffi.rs").read_text()
    return functions(re.search(r'extern "C" \{.*?\n\}', text, re.S)[0]), structs(text)


def of_c():
    text = re.sub(r"/\*.*?\*/", "", (HOME / "c/bajofeki.h").read_text(), flags=re.S)

    def kind(words):
        constant, name, star = re.match(r"\s*(const )?(\w+) (\*?)", words).groups()
        return f"*{'const' if constant else 'mut'} {word(name)}" if star else word(name)

    found = re.findall(r"^(\w+ )(bajofeki_\w+)\(([^)]*)\);", text, re.M)
    bodies = re.findall(r"typedef struct \{([^}]*)\} (bajofeki_\w+_t);", text)
    laid = {word(name): [(field, word(of)) for of, field in re.findall(r"(\w+) (\w+);", body)] for body, name in bodies}
    return {name: (kind(gives), [kind(it) for it in takes.split(",") if it != "void"]) for gives, name, takes in found}, laid


def of_python(module):
    """Pointers are neither const nor mut here."""

    def kind(it):
        return f"*{word(it._type_.__name__)}" if hasattr(it, "contents") else word((it or type(None)).__name__)

    laid = {it.__name__: [(field, kind(of)) for field, of in it._fields_] for it in module.STRUCTS}
    return {name: (kind(gives), [kind(it) for it in takes]) for name, (gives, takes) in module.FUNCTIONS.items()}, laid


def in_stub():
    """Of each function of the stub its parameters, with `=` after those that have a default; of each class those of its methods, and its
    fields or values."""

    def member(it):
        if isinstance(it, ast.FunctionDef):
            defaults = [""] * (len(it.args.args) - len(it.args.defaults)) + ["="] * len(it.args.defaults)
            return it.name, [arg.arg + default for arg, default in zip(it.args.args, defaults)]
        return (it.target.id, None) if isinstance(it, ast.AnnAssign) else (it.targets[0].id, ast.literal_eval(it.value))

    body = ast.parse((HOME / "python/bajofeki/__init__.pyi").read_text()).body
    classes = {it.name: dict(member(part) for part in it.body if not isinstance(part, ast.Expr)) for it in body if isinstance(it, ast.ClassDef)}
    return {**dict(member(it) for it in body if isinstance(it, ast.FunctionDef)), **classes}


def in_module(module, stub):
    """The same of the module; of methods with underscores those that the stub has."""

    def parameters(it):
        found = inspect.signature(it.fget if isinstance(it, property) else it).parameters.values()
        return [arg.name + "=" * (arg.default is not arg.empty) for arg in found if arg.kind is arg.POSITIONAL_OR_KEYWORD]

    def members(it):
        if inspect.isfunction(it):
            return parameters(it)
        if issubclass(it, enum.Enum):
            return {value.name: value.value for value in it}
        if hasattr(it, "_fields"):
            return dict.fromkeys(it._fields)
        kept = [name for name in vars(it) if name[0] != "_" or name in stub.get(it.__name__, ())]
        return {**dict.fromkeys(vars(it).get("__annotations__", ())), **{name: parameters(vars(it)[name]) for name in kept}}

    return {name: members(getattr(module, name)) for name in {*module.__all__, *stub}}


def without_const(declared):
    return {name: (gives, [re.sub(r"\*\w+ ", "*", it) for it in takes]) for name, (gives, takes) in declared.items()}


def differences(wanted, found):
    names = [it for it in sorted({*wanted, *found}) if wanted.get(it) != found.get(it)]
    return "\n  ".join(f"{it}: wanted {wanted.get(it)}, found {found.get(it)}" for it in names)


def version(path, form):
    return re.search(form, (HOME / path).read_text(), re.M | re.S)[1]


def compared(module):
    """For each language a title, and what is declared otherwise than exported."""
    exported = version("../crates/bajofeki_c/src/lib.rt", r"fn bajofeki_version\(\).*?≡ (\d+)")
    found = {"C": version("c/bajofeki.h", r"^#define BAJOFEKI_VERSION (\d+)$"), "Rust": version("rust/Cargo.toml", r'^version = "(\d+)\.')}
    found["Python"] = str(module._library.VERSION)
    yield f"version {exported} in {', '.join(found)}", differences(dict.fromkeys(found, exported), found)
    exported, laid = of_rattle()
    for name, (found, structs_found) in {"C": of_c(), "Rust": of_rust(), "Python": of_python(module._library)}.items():
        wanted = without_const(exported) if name == "Python" else exported
        title = f"{len(found)} functions and {len(structs_found)} structs in {name}"
        yield title, differences({**wanted, **laid}, {**found, **structs_found})
    stub = in_stub()
    yield f"{len(stub)} classes and functions in Python's stub", differences(in_module(module, stub), stub)
