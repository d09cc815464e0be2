import enum
from array import array
from typing import AnyStr, Generator, Generic, Iterator, List, NamedTuple, Optional, Tuple, Union, overload

from _typeshed import ReadableBuffer
from typing_extensions import Self

__all__ = [
    "Arrays",
    "Change",
    "Checked",
    "Columns",
    "Document",
    "Kind",
    "Lexer",
    "NotUtf8Error",
    "Outcome",
    "Piece",
    "Place",
    "Places",
    "Rule",
    "RulesError",
    "RulesErrorKind",
    "Stream",
    "TextPiece",
    "check",
    "diff",
    "dot",
]

class RulesErrorKind(enum.Enum):
    BAD_LINE = 1
    NOT_PARSED = 2
    BAD_END = 3
    NOT_COMPILED = 4
    CLASH = 5
    TOO_LARGE = 6
    OUT_OF_MEMORY = 7

class RulesError(ValueError):
    kind: RulesErrorKind
    line: int
    column: int
    rule: Optional[str]
    other: Optional[str]
    other_line: int
    other_column: int
    word: str
    position: int

class NotUtf8Error(ValueError):
    place: int
    def __init__(self, place: int) -> None: ...

class Kind(enum.Enum):
    TOKEN = "token"
    SKIPPED = "skipped"
    FAULT = "fault"
    TOO_DEEP = "too deep"

class Columns(enum.Enum):
    BYTES = "utf-8"
    CHARACTERS = "utf-32"
    UTF16 = "utf-16"

class Action(NamedTuple):
    kind: str
    mode: Optional[str]

class Rule(NamedTuple):
    name: str
    is_skipped: bool
    actions: Tuple[Action, ...] = ...

class TextPiece(NamedTuple):
    kind: Kind
    rule: Optional[str]
    text: str
    start: int
    end: int
    line: int
    column: int
    start_byte: int
    end_byte: int
    number: Optional[int]

class Piece(NamedTuple, Generic[AnyStr]):
    kind: Kind
    rule: Optional[str]
    text: AnyStr
    start: int
    end: int
    number: Optional[int]

class Arrays(NamedTuple):
    kinds: array[int]
    rules: array[int]
    ends: array[int]

class Place(NamedTuple):
    line: int
    column: int

class Places:
    def __init__(self, text: Union[str, ReadableBuffer], columns: Columns = ...) -> None: ...
    def at(self, offset: int) -> Place: ...

class Lexer:
    modes: Tuple[str, ...]
    rules: Tuple[Rule, ...]
    def __init__(self, rules: Union[str, ReadableBuffer]) -> None: ...
    @overload
    def pieces(self, text: str) -> Generator[TextPiece, None, None]: ...
    @overload
    def pieces(self, text: ReadableBuffer) -> Generator[Piece[bytes], None, None]: ...
    def arrays(self, text: Union[str, ReadableBuffer]) -> Arrays: ...
    def html(self, text: Union[str, ReadableBuffer]) -> str: ...
    def ansi(self, text: Union[str, ReadableBuffer]) -> str: ...
    def c_source(self, prefix: str = ...) -> str: ...
    def rust_source(self) -> str: ...
    def lookahead(self, mode: int) -> Union[int, float]: ...

class Outcome(enum.Enum):
    CLEAN = 0
    FOUND = 1
    REFUSED = 2
    UNREAD = 3

class Checked(NamedTuple):
    outcome: Outcome
    findings: Tuple[str, ...]
    message: str

def check(rules: Union[str, ReadableBuffer], name: str = ..., is_json: bool = ...) -> Checked: ...
def diff(rules: Union[str, ReadableBuffer], other: Union[str, ReadableBuffer], name: str = ..., other_name: str = ...) -> Checked: ...
def dot(rules: Union[str, ReadableBuffer], rule: Optional[str] = ..., name: str = ...) -> Checked: ...

class Change(NamedTuple):
    first: int
    removed: int
    inserted: int
    start: int
    old_end: int
    new_end: int

class _Open:
    def __init__(self, lexer: Lexer, what: str) -> None: ...
    @property
    def lexer(self) -> Lexer: ...
    def close(self) -> None: ...
    def __enter__(self) -> Self: ...
    def __exit__(self, *_: object) -> None: ...

class Document(_Open):
    def __init__(self, lexer: Lexer, text: Union[str, ReadableBuffer] = ...) -> None: ...
    def edit(self, start: int, end: int, new: Union[str, ReadableBuffer]) -> Change: ...
    def pieces(self, start: int = ..., end: Optional[int] = ...) -> List[Piece[str]]: ...
    def piece_at(self, offset: int) -> Optional[Piece[str]]: ...
    def place(self, offset: int, columns: Columns = ...) -> Place: ...
    def offset(self, line: int, column: int, columns: Columns = ...) -> int: ...
    @property
    def text(self) -> str: ...
    def __len__(self) -> int: ...

class Stream(_Open):
    def __init__(self, lexer: Lexer) -> None: ...
    def feed(self, chunk: Union[str, ReadableBuffer]) -> None: ...
    def finish(self) -> None: ...
    def __iter__(self) -> Iterator[Piece[str]]: ...
