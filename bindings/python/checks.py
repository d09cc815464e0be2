"""On random texts documents and streams have the pieces of a whole cut, and what is said of places, buffers and arrays is so.

>>> for seed in range(40):
...     check(random.Random(seed))
>>> long = "let x?" * 3000
>>> len(Document(LEXER, long).pieces()), len(LEXER.arrays(long).ends), sum(1 for _ in LEXER.pieces(long))
(12000, 12000, 12000)

A file in memory is cut where it lies, and stays open meanwhile.

>>> file = mmap.mmap(-1, 6)
>>> file[:] = b"let x?"
>>> pieces = LEXER.pieces(file)
>>> file.close()
Traceback (most recent call last):
BufferError: cannot close exported pointers exist
>>> [(piece.rule, piece.text) for piece in pieces], file.close()
([('LET', b'let'), ('SPACE', b' '), ('NAME', b'x'), (None, b'?')], None)

In a cycle that is garbage everything has ended once a `__del__` asks for more, and says so.

>>> asked_in_cycle(lambda: begun(LEXER.pieces(long))), asked_in_cycle(lambda: Document(LEXER, "x").pieces)
('it was closed', 'it was closed')

A pickle that is cut off is an error of pickle, and one whose rules were spoilt an error of the rules.

>>> data = pickle.dumps(LEXER)
>>> sorted({error_of(data[:size]).__name__ for size in range(len(data))}), error_of(data.replace(b"NAME", b"N(ME")).__name__
(['EOFError', 'UnpicklingError'], 'RulesError')
"""
import gc
import mmap
import pickle
import random
from concurrent.futures import ThreadPoolExecutor

from bajofeki import Columns, Document, Lexer, Places, Stream

LEXER = Lexer("LET = 'let'\nNAME = /[a-z]+/\nSPACE skip = /\\s+/\nTEXT = /\"[^\"]*\"/\nOPEN push INITIAL = '('\n")


def text(chance, most):
    return "".join(chance.choices('ab let(\n"é漢😀 ?', k=chance.randint(0, most)))


def pieces_of(data):
    return [piece._replace(text=piece.text.decode()) for piece in LEXER.pieces(data)]


class Garbage:
    """It is in a cycle, and at its end asks what it was given for all that comes."""

    def __del__(self):
        try:
            self.told.append(len(list(self.ask())))
        except ValueError as error:
            self.told.append(str(error))


def begun(items):
    next(items)
    return items.__iter__


def asked_in_cycle(made):
    garbage, told = Garbage(), []
    # Python closes a generator that is older than the object before it calls `__del__`, so what is asked is made after it.
    garbage.me, garbage.ask, garbage.told = garbage, made(), told
    del garbage
    gc.collect()
    return told[0]


def error_of(data):
    """The error of a pickle."""
    try:
        return pickle.loads(data) and None
    except Exception as error:
        return type(error)


def has_place(document, line, column, columns):
    try:
        at = document.offset(line, column, columns)
    except ValueError:
        return False
    assert document.place(at, columns) == (line, column)
    return True


def check_places(document, data, offsets):
    for columns in Columns:
        places = [document.place(at, columns) for at in offsets]
        assert places == list(map(Places(data, columns).at, offsets)) and offsets == [document.offset(*it, columns) for it in places]
        assert places == [Places(data.decode(), columns).at(len(data[:at].decode())) for at in offsets]
        near = [(line, column) for line in range(-1, 9) for column in range(-1, 30)]
        assert [it for it in near if has_place(document, *it, columns)] == [it for it in near if it in places]


def check(chance):
    document = Document(LEXER, text(chance, 60))
    data = document.text.encode()
    for _ in range(4):
        offsets = [at for at in range(len(data) + 1) if data[at : at + 1] < b"\x80" or data[at : at + 1] > b"\xbf"]
        check_places(document, data, offsets)
        (start, end), new, old = sorted(chance.choices(offsets, k=2)), text(chance, 6), document.pieces()
        change = document.edit(start, end, new)
        data = data[:start] + new.encode() + data[end:]
        pieces = pieces_of(data)
        assert document.text.encode() == data and document.pieces() == pieces
        assert old[: change.first] == pieces[: change.first] and len(pieces) == len(old) - change.removed + change.inserted
        for at, piece in enumerate(pieces):
            assert document.piece_at(piece.end - 1) == piece and document.pieces(piece.start, piece.end + 1) == pieces[at : at + 2]
    with ThreadPoolExecutor(1) as other:
        assert other.submit(document.pieces).result() == pieces
    for same in (bytearray(data), memoryview(data), memoryview(b"?" + data)[1:], data.decode()):
        assert list(LEXER.arrays(same).ends) == [piece.end for piece in pieces]
    assert [(piece.start_byte, piece.text) for piece in LEXER.pieces(data.decode())] == [(piece.start, piece.text) for piece in pieces]
    with Stream(LEXER) as stream:
        given, at = [], 0
        while at < len(data):
            size = chance.randint(0, 20)
            stream.feed(data[at : at + size])
            given, at = given + list(stream), at + size
        stream.finish()
        assert given + list(stream) == pieces
