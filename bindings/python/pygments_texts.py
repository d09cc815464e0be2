r"""The least texts that Pygments and the rules made of its lexers cut otherwise.

Of each lexer of which the rules leave nothing out, this has the least such text: the shortest, and of those the first by code points. A
token is what one rule matches, also a rule that Pygments cuts into groups. What Pygments gives and what the rules give are the names of the
tokens from the first that differs on, each with its number of characters. A character that no rule matches is an Error.

>>> for name, (text, *both) in TEXTS.items():
...     check(name, text, both, is_feed=False)
>>> for name, text in LINE_FEEDS.items():
...     check(name, text, ["Text_Whitespace 1", "Error 1"], is_feed=True)
>>> [name for name in ALIKE if is_whole(name) and rules_of(name).left]
[]

They are known to be the least: a search went through all pairs of states that the two may be in, in the order of the texts that lead there.
Of characters that all patterns of a lexer treat alike it took the first. It took no U+0345, which `python_re` tells of, no character that
Python's Unicode lacks, and no text that puts more than 1024 modes on one another, where rules end.
"""
import importlib
import itertools

import pygments
from pygments.token import string_to_tokentype

from bajofeki import Lexer
from bajofeki_import.pygments import name_of, rules_of

# The versions of Pygments that this is about, with the lexers that are whole in this one only.
ONLY = {
    "2.14.0": "hdl:VhdlLexer markup:TexLexer",
    "2.20.0": """blueprint:BlueprintLexer bqn:BQNLexer configs:TOMLLexer html:UrlEncodedLexer ldap:LdifLexer rego:RegoLexer tls:TlsLexer
    wgsl:WgslLexer""",
}
TEXTS = {
    "pygments.lexers.actionscript:MxmlLexer": ("<-\t>", "Text_Whitespace 1 Name_Tag 1", "Name_Tag 2"),
    "pygments.lexers.archetype:CadlLexer": ("\n\t", "Text_Whitespace 1 Text_Whitespace 1", "Text_Whitespace 2"),
    "pygments.lexers.archetype:OdinLexer": ("\n\t", "Text_Whitespace 1 Text_Whitespace 1", "Text_Whitespace 2"),
    "pygments.lexers.bare:BareLexer": ("type\tA0\t\0\n\t", "Text 1 Text_Whitespace 1", "Text_Whitespace 2"),
    "pygments.lexers.basic:BBCBasicLexer": ("\0*", "Operator 1", "Keyword_Pseudo 1"),
    "pygments.lexers.basic:CbmBasicV2Lexer": ("+.", "Operator 1 Literal_Number_Float 1", "Literal_Number_Float 2"),
    "pygments.lexers.bibtex:BSTLexer": ('ENTRY{"\0', "Error 1", "Name_Variable 1"),
    "pygments.lexers.blueprint:BlueprintLexer": ("0.", "Literal_Number_Integer 1 Punctuation 1", "Literal_Number 2"),
    "pygments.lexers.configs:ApacheConfLexer": ("A\t0\0", "Literal_Number 1 Text 1", "Text 2"),
    "pygments.lexers.configs:AugeasLexer": ("\t\t", "Name_Variable 1 Name_Variable 1", "Text_Whitespace 2"),
    "pygments.lexers.configs:Cfengine3Lexer": ("0A", "Literal_Number_Integer 1 Name_Function 1", "Name_Function 2"),
    "pygments.lexers.configs:TOMLLexer": ("=[\0\t", "Error 1", "Text_Whitespace 1"),
    "pygments.lexers.diff:DarcsPatchLexer": ("+\n", "Generic_Inserted 1 Text_Whitespace 1", "Text 2"),
    "pygments.lexers.dsls:MscgenLexer": ('["\\"="=0"', "Name_Attribute 7 Error 1", "Name_Attribute 8"),
    "pygments.lexers.dylan:DylanLidLexer": ("\t:", "Text_Whitespace 1 Name_Attribute 1", "Name_Attribute 2"),
    "pygments.lexers.fift:FiftLexer": ('"\0', "Literal_String 1 Literal_String 1", "Name 2"),
    "pygments.lexers.floscript:FloScriptLexer": (".0", "Operator 1 Literal_Number_Integer 1", "Literal_Number_Float 2"),
    "pygments.lexers.fortran:FortranFixedLexer": ("\0\0\0\0\0\n", "Name_Label 5 Text_Whitespace 1", "Text 6"),
    "pygments.lexers.grammar_notation:PegLexer": (".\0", "Keyword 1 Name_Class 1", "Name_Class 2"),
    "pygments.lexers.hdl:VhdlLexer": ("0E0", "Literal_Number_Integer 1 Name 2", "Literal_Number_Float 3"),
    "pygments.lexers.html:DtdLexer": ('<!ENTITY\t\0\t""\0', "Literal_String_Double 2 Name_Entity 1", "Name_Entity 3"),
    "pygments.lexers.html:XmlLexer": ("<-\t>", "Text_Whitespace 1 Name_Tag 1", "Name_Tag 2"),
    "pygments.lexers.javascript:MaskLexer": ('"\0', "Literal_String 1 Literal_String_Single 1", "Name_Class 2"),
    "pygments.lexers.jmespath:JMESPathLexer": ('"A', "Name_Variable 1 Name_Variable 1", "Punctuation 2"),
    "pygments.lexers.ldap:LdifLexer": ("dn:<", "Keyword 3 Error 1", "Name_Attribute 4"),
    "pygments.lexers.lisp:FennelLexer": ("-0!", "Literal_Number_Integer 2 Name_Variable 1", "Name_Variable 3"),
    "pygments.lexers.markup:GroffLexer": (".\0", "Punctuation 1 Literal_String 1", "Text 2"),
    "pygments.lexers.markup:TexLexer": ("\\\0%*", "Text 1", "Keyword 1"),
    "pygments.lexers.maxima:MaximaLexer": ("##", "Operator 1 Operator 1", "Name_Variable 2"),
    "pygments.lexers.parsers:EbnfLexer": ("(*(*", "Comment_Multiline 1 Comment_Multiline 1", "Comment_Multiline 2"),
    "pygments.lexers.rego:RegoLexer": ("\n\t", "Text_Whitespace 1 Text_Whitespace 1", "Text_Whitespace 2"),
    "pygments.lexers.resource:ResourceLexer": ('":BIN', "Literal_String 1 Literal_String 4", "Name 5"),
    "pygments.lexers.scripting:EasytrieveLexer": ("\t\0", "Text_Whitespace 1 Name 1", "Name 2"),
    "pygments.lexers.scripting:MiniScriptLexer": ("\0#!", "Error 1 Error 1", "Comment_Preproc 2"),
    "pygments.lexers.sgf:SmartGameFormatLexer": ("[\t]]", "Punctuation 3 Error 1", "Punctuation 4"),
    "pygments.lexers.sql:RqlLexer": ("IS?", "Name_Builtin 2 Error 1", "Name 3"),
    "pygments.lexers.templates:Angular2Lexer": ("{{0X0", "Literal_Number 1 Name_Variable 2", "Literal_Number 3"),
    "pygments.lexers.templates:ColdfusionLexer": ("&&", "Operator 1 Operator 1", "Operator 2"),
    "pygments.lexers.templates:HandlebarsLexer": ('{{"="', "Name_Attribute 2 Error 1", "Literal_String_Double 3"),
    "pygments.lexers.templates:SmartyLexer": ("{0X0", "Literal_Number 1 Name_Attribute 2", "Literal_Number 3"),
    "pygments.lexers.textfmts:TodotxtLexer": ("\0\n\t", "Text 1 Error 1", "Text 2"),
    "pygments.lexers.trafficscript:RtsLexer": ("!=", "Operator 1 Operator 1", "Operator 2"),
    "pygments.lexers.typoscript:TypoScriptHtmlDataLexer": ("EXT:{-:-}", "Literal_String 8 Literal_String 1", "Literal_String 9"),
    "pygments.lexers.verification:BoogieLexer": ("\n\t", "Text 1 Text 1", "Text 2"),
    "pygments.lexers.verification:SilverLexer": ("\n\t", "Text 1 Text 1", "Text 2"),
    "pygments.lexers.wgsl:WgslLexer": ("@\0A", "Name 1", "Name_Decorator 1"),
    "pygments.lexers.xorg:XorgLexer": ("EndSection\t\0", "Literal_String_Escape 10 Text 1 Error 1", "Name_Builtin 12"),
    "pygments.lexers.zig:ZigLexer": ("\n\t", "Text_Whitespace 1 Text_Whitespace 1", "Text_Whitespace 2"),
}
# The least texts that differ in a line feed that no rule matches: here it's a fault, and Pygments gives white space and goes back to its
# first state. The texts of `TEXTS` differ in something else.
LINE_FEEDS = {
    "pygments.lexers.archetype:CadlLexer": "[\n",
    "pygments.lexers.archetype:OdinLexer": "[\n",
    "pygments.lexers.configs:TOMLLexer": "'\n",
    "pygments.lexers.diff:DarcsPatchLexer": "[\n**0\t\n",
    "pygments.lexers.esoteric:AheuiLexer": "\n",
    "pygments.lexers.fift:FiftLexer": '"\n',
    "pygments.lexers.grammar_notation:PegLexer": "\n",
    "pygments.lexers.haxe:HxmlLexer": "\n",
    "pygments.lexers.html:UrlEncodedLexer": "\n",
    "pygments.lexers.ldap:LdifLexer": ":\n",
    "pygments.lexers.minecraft:SNBTLexer": '{"\n',
    "pygments.lexers.templates:Angular2Lexer": "#-=>\n",
    "pygments.lexers.textfmts:TodotxtLexer": "\n",
    "pygments.lexers.trafficscript:RtsLexer": "\n",
    "pygments.lexers.zig:ZigLexer": '"\n',
}
# No text was found that these cut otherwise: the search came to its end, and 20,000 random texts of each were tried besides.
ALIKE = tuple(f"pygments.lexers.{name}" for name in """algebra:MathematicaLexer apl:APLLexer bqn:BQNLexer
    business:GoodDataCLLexer configs:LighttpdConfLexer diff:DiffLexer diff:WDiffLexer esoteric:BefungeLexer esoteric:BrainfuckLexer
    grammar_notation:BnfLexer markup:BBCodeLexer tlb:TlbLexer tls:TlsLexer""".split())


def is_whole(name):
    """Whether Pygments is of a version in which the rules leave nothing out of this lexer."""
    version = pygments.__version__
    return version in ONLY and all(it == version or name.split(".")[-1] not in names.split() for it, names in ONLY.items())


def named(action):
    return action if action is None else string_to_tokentype(name_of(action)[0].replace("_", "."))


def pair(name):
    """A lexer of Pygments in which each match of a rule becomes one token, with the name of the rule, and the lexer of the rules."""
    module, _, name_of_class = name.partition(":")
    lexer = getattr(importlib.import_module(module), name_of_class)()
    lexer._tokens = {state: [(it[0], named(it[1]), it[2]) for it in entries] for state, entries in lexer._tokens.items()}
    return lexer, Lexer(rules_of(name).text())


def difference(lexer, rules, text):
    """What both give from the first token that differs on, and whether that is a line feed that no rule matches; None if none does."""
    found = [("_".join(kind) or "Token", at, at + len(part)) for at, kind, part in lexer.get_tokens_unprocessed(text) if part]
    given = []
    for piece in rules.pieces(text):
        given += [(piece.rule, piece.start, piece.end)] if piece.rule else [("Error", at, at + 1) for at in range(piece.start, piece.end)]
    same = sum(1 for _ in itertools.takewhile(lambda it: it[0] == it[1], zip(found, given)))
    rest = found[same:], given[same:]
    if any(rest):
        (first, at, _), (second, _, _) = rest[0][0], rest[1][0]
        is_feed = (first, second, text[at]) == ("Text_Whitespace", "Error", "\n")
        return [" ".join(f"{name} {end - start}" for name, start, end in it) for it in rest], is_feed


def check(name, text, both, is_feed):
    """They differ as is said, and so in no shorter text of its characters; where those are more than 1000, in no part of the text."""
    if is_whole(name):
        both_lexers, characters = pair(name), {*text}
        assert difference(*both_lexers, text) == (both, is_feed), (name, text, difference(*both_lexers, text))
        for size in range(len(text)):
            is_few = len(characters) ** size <= 1000
            for word in map("".join, itertools.product(characters, repeat=size) if is_few else itertools.combinations(text, size)):
                found = difference(*both_lexers, word)
                assert not found or found[1] != is_feed, (name, word, found)
