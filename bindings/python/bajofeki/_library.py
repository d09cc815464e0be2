"""The functions of the C library. Their contracts are in crates/bajofeki_c/src/lib.rt, and what they require of a caller is listed in
bindings/c/bajofeki.h."""
import itertools
import os
import weakref
from ctypes import CDLL, POINTER, PyDLL, Structure, byref, c_bool, c_char_p, c_size_t, c_uint32, c_uint64, c_void_p
from ctypes import create_string_buffer, py_object
from pathlib import Path


class Report(Structure):
    _fields_ = [("code", c_uint32), *((name, c_size_t) for name in "line column rule other other_line other_column position".split())]


class Piece(Structure):
    _fields_ = [("kind", c_uint32), ("rule", c_size_t), ("start", c_size_t), ("length", c_size_t)]


class Cut(Structure):
    _fields_ = [("code", c_uint32), ("count", c_size_t), ("end", c_size_t)]


class Place(Structure):
    _fields_ = [("at", c_size_t), ("line", c_size_t), ("column", c_size_t)]


class Page(Structure):
    _fields_ = [("code", c_uint32), ("length", c_size_t)]


class Checked(Structure):
    _fields_ = [("code", c_uint32), ("found", c_size_t), ("length", c_size_t)]


class Look(Structure):
    _fields_ = [("code", c_uint32), ("count", c_size_t)]


class Action(Structure):
    _fields_ = [("kind", c_uint32), ("mode", c_size_t)]


class Edit(Structure):
    _fields_ = [("code", c_uint32), *((name, c_size_t) for name in "first removed inserted start old_end new_end".split())]


class Count(Structure):
    _fields_ = [("code", c_uint32), ("count", c_size_t)]


STRUCTS = (Report, Piece, Cut, Place, Page, Checked, Look, Action, Edit, Count)
# Of each function of the library what it gives and what it takes.
FUNCTIONS = {
    "bajofeki_lexer_size": (c_size_t, []),
    "bajofeki_cutter_size": (c_size_t, []),
    "bajofeki_build": (None, [c_void_p, c_void_p, c_size_t]),
    "bajofeki_report": (Report, [c_void_p]),
    "bajofeki_word": (c_size_t, [c_void_p, POINTER(c_uint32), c_size_t]),
    "bajofeki_rules": (c_size_t, [c_void_p]),
    "bajofeki_name": (c_size_t, [c_void_p, c_size_t, c_char_p, c_size_t]),
    "bajofeki_skips": (c_bool, [c_void_p, c_size_t]),
    "bajofeki_modes": (c_size_t, [c_void_p]),
    "bajofeki_mode_name": (c_size_t, [c_void_p, c_size_t, c_char_p, c_size_t]),
    "bajofeki_action": (Action, [c_void_p, c_size_t, c_size_t]),
    "bajofeki_lookahead": (Look, [c_void_p, c_size_t]),
    "bajofeki_html": (Page, [c_void_p, c_void_p, c_size_t, c_char_p, c_size_t]),
    "bajofeki_ansi": (Page, [c_void_p, c_void_p, c_size_t, c_char_p, c_size_t]),
    "bajofeki_c_source": (Page, [c_void_p, c_void_p, c_size_t, c_char_p, c_size_t]),
    "bajofeki_rust_source": (Page, [c_void_p, c_char_p, c_size_t]),
    "bajofeki_free": (None, [c_void_p]),
    "bajofeki_begin": (c_uint32, [c_void_p, c_void_p, c_size_t]),
    "bajofeki_begin_again": (c_uint32, [c_void_p, c_void_p, c_size_t]),
    "bajofeki_cut": (Cut, [c_void_p, c_void_p, c_void_p, c_size_t, POINTER(Piece), c_size_t]),
    "bajofeki_end": (None, [c_void_p]),
    "bajofeki_document_size": (c_size_t, []),
    "bajofeki_document_begin": (None, [c_void_p, c_void_p]),
    "bajofeki_edit": (Edit, [c_void_p, c_size_t, c_size_t, c_void_p, c_size_t]),
    "bajofeki_pieces": (Count, [c_void_p, c_size_t, c_size_t, POINTER(Piece), c_size_t]),
    "bajofeki_place": (Place, [c_void_p, c_size_t]),
    "bajofeki_offset": (Place, [c_void_p, c_size_t, c_size_t]),
    "bajofeki_copy": (c_size_t, [c_void_p, c_size_t, c_char_p, c_size_t]),
    "bajofeki_document_end": (None, [c_void_p]),
    "bajofeki_stream_size": (c_size_t, []),
    "bajofeki_stream_begin": (None, [c_void_p, c_void_p]),
    "bajofeki_feed": (c_uint32, [c_void_p, c_void_p, c_size_t, c_bool]),
    "bajofeki_next": (Count, [c_void_p, POINTER(Piece), c_size_t]),
    "bajofeki_stream_end": (None, [c_void_p]),
    "bajofeki_check": (Checked, [c_void_p, c_size_t, c_void_p, c_size_t, c_bool, c_char_p, c_size_t]),
    "bajofeki_diff": (Checked, [*[c_void_p, c_size_t] * 4, c_char_p, c_size_t]),
    "bajofeki_dot": (Checked, [*[c_void_p, c_size_t] * 3, c_char_p, c_size_t]),
    "bajofeki_position": (Place, [c_void_p, c_size_t, c_size_t]),
    "bajofeki_version": (c_uint32, []),
}


# The version of the functions, and so the number in the library's name.
VERSION = 5


def _loaded():
    """The library that BAJOFEKI_LIBRARY names, or that lies beside this file, or the system's."""
    name = f"libbajofeki.so.{VERSION}"
    beside = Path(__file__).resolve().with_name(name)
    path = os.environ.get("BAJOFEKI_LIBRARY") or (str(beside) if beside.is_file() else name)
    try:
        library = CDLL(path)
        for name, (result, arguments) in FUNCTIONS.items():
            function = getattr(library, name)
            function.restype, function.argtypes = result, arguments
    except (OSError, AttributeError) as error:
        raise ImportError(f"bajofeki has no library for this system: {error}") from error
    if library.bajofeki_version() != VERSION:
        raise ImportError(f"{path} has version {library.bajofeki_version()}, not {VERSION}")
    return library


LIBRARY = _loaded()


class _Buffer(Structure):
    """Python's Py_buffer: where the bytes lie, and ten more words."""

    _fields_ = [("at", c_void_p), ("rest", c_void_p * 10)]


_PYTHON = PyDLL(None)


def _address(view):
    """Where the bytes of a view lie; the pointer isn't null, not even to 0 bytes."""
    buffer = _Buffer()
    _PYTHON.PyObject_GetBuffer(py_object(view), byref(buffer), 0)
    at = buffer.at or b""
    _PYTHON.PyBuffer_Release(byref(buffer))
    return at


class Text:
    """The bytes of a text where they lie: of a str those of its UTF-8. A view of a buffer keeps them there."""

    def __init__(self, text):
        self.is_str = isinstance(text, str)
        text = text.encode("utf-8", "surrogatepass") if self.is_str else text
        self.data = text if type(text) is bytes else memoryview(text).cast("B")
        self.size, self.at = len(self.data), text if type(text) is bytes else _address(self.data)


class Room:
    """Room of `size` bytes, in which something of the library's begins. That ends by `end`, at the latest once nothing holds the room, and
    what lies in the rooms below stays until then. Python calls `end` before any `__del__` of a cycle that the room is in."""

    def __init__(self, size, begin, end, *below):
        self._words = words = (c_uint64 * ((size + 7) // 8))()
        self.begun = begin(words)
        self.end = weakref.finalize(self, lambda *_: end(words), *below)
        # At the end of the process a thread may still be in a call.
        self.end.atexit = False

    @property
    def words(self):
        """The room, for a call of the library."""
        if not self.end.alive:
            raise ValueError("it was closed")
        return self._words


def written(call, room):
    """What a call gives, and the bytes that it writes into an array, which grows until all of them fit."""
    while True:
        out = create_string_buffer(room or 1)
        page = call(out, room)
        if page.length <= room:
            return page, out.raw[: page.length]
        room = page.length


def word(lexer):
    """The word on which the rules of a lexer clash."""
    length = LIBRARY.bajofeki_word(lexer, byref(c_uint32()), 0)
    out = (c_uint32 * length)()
    if length:
        LIBRARY.bajofeki_word(lexer, out, length)
    return "".join(map(chr, out))


def name(writes, lexer, number):
    """The name of a rule or of a mode, which a function writes."""
    length = writes(lexer, number, b"", 0)
    out = create_string_buffer(length)
    writes(lexer, number, out, length)
    return out.raw.decode()


def actions(lexer, rule):
    """The kinds and modes of the actions of a rule."""
    found = (LIBRARY.bajofeki_action(lexer, rule, place) for place in itertools.count())
    return [(it.kind, it.mode) for it in itertools.takewhile(lambda it: it.kind < 3, found)]
