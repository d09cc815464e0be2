"""What kinds of tokens rules are of, by the words of their names: as of LINE_COMMENT or OPEN_STRING, where the last word that tells counts.
The kinds are those of Pygments."""

WORDS = {
    "Keyword": "KEYWORD RESERVED IF ELSE WHILE FOR LET RETURN IMPORT DEF FN",
    "Keyword.Type": "TYPE CLASS",
    "Keyword.Constant": "TRUE FALSE NULL NONE NIL CONSTANT",
    "Name": "NAME IDENTIFIER IDENT ID WORD SYMBOL",
    "Name.Variable": "VARIABLE PARAMETER",
    "Name.Function": "FUNCTION COMMAND",
    "Name.Attribute": "KEY ATTRIBUTE FIELD",
    "Name.Decorator": "DECORATOR ANNOTATION",
    "Name.Tag": "TAG",
    "Name.Label": "LABEL LIFETIME",
    "Number": "NUMBER NUMERAL DECIMAL REAL DATE TIME",
    "Number.Integer": "INTEGER INT WHOLE",
    "Number.Float": "FLOAT",
    "Number.Hex": "HEX HEXADECIMAL",
    "String": "STRING TEXT QUOTE TEMPLATE",
    "String.Char": "CHARACTER CHAR",
    "String.Regex": "REGEX REGEXP",
    "String.Escape": "ESCAPE",
    "Comment": "COMMENT REMARK",
    "Comment.Preproc": "DIRECTIVE INCLUDE PREPROCESSOR SHEBANG",
    "Operator": "OPERATOR SIGN PLUS MINUS TIMES DIVIDE POWER EQUALS EQUAL ASSIGN ARROW NOT AND OR",
    "Punctuation": "PUNCTUATOR PUNCTUATION DELIMITER BRACKET OPEN CLOSE COMMA COLON SEMICOLON DOT BEGIN END",
    "Text.Whitespace": "SPACE WHITESPACE BLANK NEWLINE INDENT",
}
_KINDS = {word: kind for kind, words in WORDS.items() for word in words.split()}


def kind_of(name):
    """The kind of a rule with this name, Text if no word of it tells.

    >>> kind_of("LINE_COMMENT"), kind_of("number"), kind_of("QUX")
    ('Comment', 'Number', 'Text')
    """
    return next((_KINDS[word] for word in reversed(name.upper().split("_")) if word in _KINDS), "Text")
