"""Pygments lexers of files of rules.

    class CalculatorLexer(BajofekiLexer):
        name = "Calculator"
        aliases = ["calculator"]
        filenames = ["*.calc"]
        rules = Path("calculator.rules").read_bytes()
        types = {"POWER": Operator.Word}

`pygmentize -x -l calculator.py:CalculatorLexer circle.calc` then colours a file. A rule that `types` lacks has the type of its name, as
bajofeki_words tells it.
"""
from pygments.lexer import Lexer as PygmentsLexer
from pygments.token import Error, Name, string_to_tokentype

from bajofeki import Kind, Lexer
from bajofeki_words import kind_of


def type_of(name):
    """The type of a rule with this name, Text if no word of it tells.

    >>> type_of("LINE_COMMENT"), type_of("number"), type_of("QUX")
    (Token.Comment, Token.Literal.Number, Token.Text)
    """
    return string_to_tokentype(kind_of(name))


class BajofekiLexer(PygmentsLexer):
    r"""Colours by the rules of a subclass: `rules` is a file of them, `types` gives types to rules by name. Faults are errors.

    >>> class Words(BajofekiLexer):
    ...     rules = "LET = 'let'\nNAME = /[a-z]+/\nSPACE skip = /\\s+/"
    ...     types = {"NAME": Name.Variable}
    >>> list(Words().get_tokens("let x?"))[2:4]
    [(Token.Name.Variable, 'x'), (Token.Error, '?')]
    """

    rules = ""
    types = {}

    def get_tokens_unprocessed(self, text):
        # A class has one lexer, which is built for its first text.
        if "_lexer" not in vars(type(self)):
            type(self)._lexer = Lexer(self.rules)
        for piece in self._lexer.pieces(text):
            is_token = piece.kind in (Kind.TOKEN, Kind.SKIPPED)
            yield piece.start, (self.types.get(piece.rule) or type_of(piece.rule)) if is_token else Error, piece.text
