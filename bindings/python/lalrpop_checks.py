r"""The rules of lalrpop grammars, in which each form of a terminal and of a match block stands. Where lalrpop is installed, the table of
regexes that it generates makes another file of rules, which cuts every text alike.

>>> check_tables({name: check_rules(name, *it) for name, it in GRAMMARS.items()})
>>> print(run("extern.lalrpop", EXTERN))
2 bajofeki-import: extern.lalrpop: line 3: `extern` names the tokens of another lexer, so this grammar has no terminals
>>> print(run("left_out.lalrpop", LEFT_OUT))
1 SKIP_1 skip = 2 /a+/
# left_out.lalrpop:2: left out: r"\p{Script=Greek}": there is no set of characters by this name
# left_out.lalrpop:2: left out: r"[:alpha:](?P<n>a)": a lexer can't have named groups: write `(?:..)`
# left_out.lalrpop:2: left out: r"\bb": a lexer can't have look-around, so no `^`, `$` or `\b`: a match begins where the last one ended
bajofeki-import: left_out.lalrpop: 1 rules, 3 left out
>>> for grammar in WRONG:
...     print(run("wrong.lalrpop", "grammar;\n" + grammar)[34:])
line 2: no token of a grammar begins with '"'
line 2: no token of a grammar begins with '/'
line 2: { is a bracket without its other half
line 2: no item of a grammar begins with "a"
line 2: lalrpop has no escape \x
line 2: the match block has no "a", and no `_`
line 2: there is no macro M with 1 parameters
line 2: only a parameter that is a literal has a condition
line 2: the macro M is used without end
"""
import re
import shutil
import subprocess
import sys
import tempfile
from pathlib import Path

from bajofeki import Outcome, check, diff
from bajofeki_import import lalrpop

EXTERN = """grammar;
pub S: () = { "a" => (), "b" => () };
extern { type Location = usize; enum char { "a" => 'a', "b" => '"' } }
"""
LEFT_OUT = r"""grammar;
pub S: () = { r"\p{Script=Greek}" => (), r"[:alpha:](?P<n>a)" => (), r"\bb" => () };
match { r"a+" => { }, _ }
"""
WRONG = ('S = "a;', 'S = "a" / "b";', 'S = { "a"', '"a" = S;', r'S = "\x";', 'S = "a"; match { "b" }', 'S = M<"a">;')
WRONG += ('S = M<T>; M<K> = { "a" if K == "b" };', "S = M<T>; M<K> = M<(K K)>;")
# Grammars, and the lines of their rules, each after two spaces.
GRAMMARS = {
    # No match block; precedence in a grammar has literals.
    "plain": ("""use std::{str::FromStr, fmt};
grammar;
pub Expr: i32 = {
    #[precedence(level="1")] r"[0-9]+" => i32::from_str(<>).unwrap(), // "comment"
    "(" <Expr> ")",
    #[precedence(level="2")] #[assoc(side="left")] <l:Expr> "*" <r:Expr> => l * r,
};
""", r"""REGEX_1 = /[0-9]+/  OPEN = "("  CLOSE = ")"  STAR = "*"  SPACE skip = 2 /\s+/"""),
    "match": ("""grammar;
pub S: () = { "if" => (), ID => (), "[" => (), r"[0-9]+" => (), "while" => () };
match { "if", "else" => ELSE } else { r"[a-z]+" => ID, _ }
""", r"""if = 5 "if"  ELSE = 5 "else"  ID = 2 /[a-z]+/  OPEN_BRACKET = "["  REGEX_1 = /[0-9]+/  while = "while"  SPACE skip = 6 /\s+/"""),
    "skip": (r"""grammar;
pub S: () = { "begin" => (), NAME => (), r"[0-9]+" => (), ASSIGN => () };
match {
    r"\s*" => { }, r"//[^\n]*" => {}, // `// comment`
    r"/\*([^*]|\*+[^*/])*\*+/" => {
    },
} else { r"(?i)begin" => "begin", ":=" => ASSIGN, } else { r"[a-zA-Z_]+" => NAME, r"[0-9]+" }
""", r"""SKIP_1 skip = 6 /\s*/  SKIP_2 skip = 6 ///[^\n]*/  SKIP_3 skip = 6 //\*([^*]|\*+[^*/])*\*+//  begin = 4 /(?i)begin/
        ASSIGN = 5 ":="  NAME = 2 /[a-zA-Z_]+/  REGEX_1 = 2 /[0-9]+/"""),
    "quotes": (r"""grammar;
pub S: () = { "\"" => (), "\\" => (), "a\tb" => (), r#""([^"\\]|\\.)*""# => (), r##"#"#[a-z]+"## => (), r"/" => (), "//" => (), r"'" => (),
    "'" => (), "#" => (), " = " => (), "" => () };
""", r"""QUOTE = "\""  BACKSLASH = "\\"  a_TAB_b = "a\tb"  REGEX_1 = /"([^"\\]|\\.)*"/  REGEX_2 = /#"#[a-z]+/  REGEX_3 = ///
        SLASH_SLASH = "//"  REGEX_4 = /'/  APOSTROPHE = "'"  HASH = "#"  SPACE_EQUAL_SPACE = " = "  EMPTY = ""  SPACE skip = 2 /\s+/"""),
    # Of macros only what their uses make: no "1" of a condition, no "unused".
    "macros": ("""grammar;
pub S: () = { <Comma<Item>> ";" => () };
Item: () = { Kind<"let"> => (), Kind<"ale"> => (), List<"-"> => (), Other => () };
Other: () = { Twice<("(" ")")> => (), Ignore<"ignored", "1"> => (), Ignore<("kept"), "2"> => () };
Comma<T>: Vec<T> = { <mut v:(<T> ",")*> <e:T?> => match e { None => v, Some(e) => { v.push(e); v } } };
Kind<K>: () = {
    <name:K> "is" if K == "let" => (), K "isn't" if K != "le" => (), K "l" if K ~~ "^l" => (), K "no l" if K !~ "^l" => (),
    K "never" if K == "x" => (),
};
Twice<T>: () = T T => ();
Ignore<T, U>: () = { <T:"!"> U => () };
List<T>: () = { T => (), List<T> "+" T => () };
Unused<T>: () = { "unused" T => () };
""", r"""SEMICOLON = ";"  let = "let"  ale = "ale"  MINUS = "-"  OPEN = "("  CLOSE = ")"  _1 = "1"  kept = "kept"  _2 = "2"
        COMMA = ","  is = "is"  isn_APOSTROPHE_t = "isn't"  l = "l"  no_SPACE_l = "no l"  BANG = "!"  PLUS = "+"  SPACE skip = 2 /\s+/"""),
    "code": (r"""grammar;
pub S: Vec<String> = { <T*> };
T: String = {
    "a" => { let s = "}; \"x\" // \\"; /* {} ' */ let c = '}'; let d = '\"'; let e = '"'; vec![s, "\"no\""].join("b") },
    "b" => format!("{}{}", r#"no "quotes" { "#, r"n"), // "comment" r"[x]"
    "c" =>? Err(lalrpop_util::ParseError::User { error: "no, \"d\"" }),
    "d" => { fn f<'a>(x: &'a str) -> &'a str { x } f("x").to_string() },
    "e" => match '\u{7d}' { '{' | ',' | ';' => b'}'.to_string(), _ => br#"}"#.len().to_string() },
    <l:@L> "f" <r:@R> => { if l < r { "<".to_string() } else { String::from(">") } },
    "g" => String::new()
};
At: usize = =>@L;
U: () = { "h" => (), => () }
""", r"""a = "a"  b = "b"  c = "c"  d = "d"  e = "e"  f = "f"  g = "g"  h = "h"  SPACE skip = 2 /\s+/"""),
    "header": (r"""#![allow(clippy::all, unused_imports)] #![type_length_limit = 9_000]
#![doc = "no [brackets] \"terminal\""]
use std::fmt::{self, Debug};
grammar<'a, T>(text: &'a str, made: &mut dyn Fn(&'a str) -> T) where T: Debug + Iterator<Item=u8>, for<'b> T: Into<&'b str>, 'a: 'input;
extern { type Error = String; }
#[inline]
Inner: (&'input str, [u8], std::result::Result<&'a mut T, ()>) = { "x" => panic!() };
pub(crate) Outer: () = { Inner => (), Other => () };
pub(in super) Other: dyn Fn(u8) -> u8 = { "y" => (), };
#[cfg(feature = "some")]
pub Third: () = "z" => ();
`grammar`: #"x"# = "x";
Fourth = `grammar` "w";
""", r"""x = "x"  y = "y"  z = "z"  w = "w"  SPACE skip = 2 /\s+/"""),
    "regexes": (r"""grammar;
pub S: () = { "→" => (), "λx" => (), "É" => (), r"[\p{Greek}&&[α-ω]]+" => (), r"(?i)naïve" => (), r"[\p{Lu}--[A-Z]&&\u{0}-\u{17f}]" => (),
    r"[\w&&[^a-zA-Z]&&[[:ascii:]]]+" => (), r"\x41\u{1F600}\U0001F601" => (), r"[[:upper:]]{2,3}" => (),
    r"(?x) 0x [0-9 a-f]+   # a number
        ( _ [0-9 a-f] {1, 3} )*" => (), r"(?s).{3}\n
z" => () };
""", r"""_2192 = "→"  _3bbx = "λx"  _c9 = "É"  REGEX_1 = /[\p{Greek}&&[α-ω]]+/  REGEX_2 = /(?i)naïve/
        REGEX_3 = /[\p{Lu}--[A-Z]&&\u{0}-\u{17f}]/  REGEX_4 = /[\w&&[^a-zA-Z]&&[[:ascii:]]]+/  REGEX_5 = /\x41\u{1F600}\U0001F601/
        REGEX_6 = /[[:upper:]]{2,3}/  REGEX_7 = /0x[0-9a-f]+(_[0-9a-f]{1,3})*/  REGEX_8 = /(?s).{3}\n\nz/  SPACE skip = 2 /\s+/"""),
    # White space that is skipped wins.
    "white": (r"""grammar;
pub S: () = { "\n" => (), r"[ \t]+" => (), r" +x" => (), "a b" => () };
""", r"""NEWLINE = "\n"  REGEX_1 = /[ \t]+/  REGEX_2 = / +x/  a_SPACE_b = "a b"  SPACE skip = 2 /\s+/"""),
    "mapped": ("""grammar;
pub S: () = { NUMBER => (), WORD => (), "yes" => (), r"[A-Z]+" => () };
match { r"0x[0-9a-f]+" => NUMBER, "no" => WORD } else { r"on|yes" => "yes" } else { r"[A-Z]+|[a-z]+" => r"[A-Z]+", "+" => PLUS, }
""", r"""NUMBER = 6 /0x[0-9a-f]+/  WORD = 7 "no"  yes = 4 /on|yes/  REGEX_1 = 2 /[A-Z]+|[a-z]+/  PLUS = 3 "+"  SPACE skip = 8 /\s+/"""),
    # A literal that becomes something else in the match block, and is used as itself, stands there twice.
    "again": ("""grammar;
pub S: () = { A => (), "+" => (), PLUS => (), r"[a-z]+" => (), r"[a-z]+x" => (), "," => (), "ab" => () };
match { "+" => A, "++" => PLUS, r"[a-z]+" } else { "ab" => { }, _ }
""", '''A = 5 "+"  PLUS = 5 "++"  REGEX_1 = 4 /[a-z]+/  SKIP_1 skip = 3 "ab"  PLUS_1 = "+"  REGEX_2 = /[a-z]+x/  COMMA = ","
        ab = "ab"'''),
    "positions": ("""grammar;
pub S: Vec<()> = { <mut v:(("a" <"b">) ",")*> <e:("c" "d"?)?> => vec![], <x:!> => vec![], };
R: () = <a:@L> <b:"e"> <c:("f" "g")+> <d:@R> <n:(<"h"> "i")> => ();
Q: (&'input str, &'input str) = <"j"> <"k">;
`P`: () = { ("l"), (("m")) ("n")* => (), Opt<<"o">> => (), };
Opt<T>: () = T? => ();
V<A, B,>: () = { A B => () };
W: () = V<"p", V<Opt<"q">, ("r" "s")>,> ;
Empty: () = { () => (), };
""", r"""a = "a"  b = "b"  COMMA = ","  c = "c"  d = "d"  e = "e"  f = "f"  g = "g"  h = "h"  i = "i"  j = "j"  k = "k"  l = "l"
        m = "m"  n = "n"  o = "o"  p = "p"  q = "q"  r = "r"  s = "s"  SPACE skip = 2 /\s+/"""),
    "empty": ("""grammar;
pub S: () = { r"a*" => (), r"b?c*" => (), "a" => (), "" => () };
match { r"a*", "" } else { r"b?c*" } else { _ }
""", r"""REGEX_1 = 6 /a*/  EMPTY = 7 ""  REGEX_2 = 4 /b?c*/  a = "a"  SPACE skip = 8 /\s+/"""),
}


def check_rules(name, grammar, rules):
    with tempfile.TemporaryDirectory() as at:
        path = Path(at, name)
        path.write_text(grammar, encoding="utf-8")
        made = lalrpop.rules_of(str(path))
    assert made.text().splitlines() == re.split(r"\s{2,}", rules) and made.left == 0, made.text()
    assert check(made.text()).outcome in (Outcome.CLEAN, Outcome.FOUND), check(made.text())
    return made.text()


def table(source):
    """The regexes of generated code, in the order of their precedences, and whether what they match is skipped."""
    lines = re.search(r"let __strs: &\[\(&str, bool\)\] = &\[\n(.*?)^ *\];", source, re.S | re.M)[1].splitlines()
    known = {"n": "\n", "r": "\r", "t": "\t", "0": "\0"}
    for raw, text, skip in (re.fullmatch(r' *\((r?)"\^(.*)", (true|false)\),', it).groups() for it in lines):
        unescape = lambda it: chr(int(it[2], 16)) if it[2] else known.get(it[1], it[1])
        yield text if raw else re.sub(r"\\(u\{(\w+)\}|.)", unescape, text), skip == "true"


def check_tables(made):
    if not shutil.which("lalrpop"):
        print("lalrpop isn't installed, so its tables aren't compared", file=sys.stderr)
        return
    with tempfile.TemporaryDirectory() as at:
        for name, (grammar, _) in GRAMMARS.items():
            Path(at, f"{name}.lalrpop").write_text(grammar, encoding="utf-8")
        subprocess.run(["lalrpop", "-f", "-l", "quiet", *(f"{it}.lalrpop" for it in GRAMMARS)], cwd=at, check=True, timeout=60)
        for name, (grammar, _) in GRAMMARS.items():
            rows = list(table(Path(at, f"{name}.rs").read_text(encoding="utf-8")))
            entries = lalrpop.entries_of(lalrpop.Grammar(grammar))
            names = lalrpop.names_of(it.gives for it in entries)
            entries.sort(key=lambda it: (it.precedence, it.matches[0] == "regex", it.matches[1]))
            assert [it.gives[0] in ("skip", "space") for it in entries] == [skip for _, skip in rows], (name, rows)
            lines = zip(entries, range(len(rows)), rows)
            others = "".join(f"{names[it.gives]} {'skip ' * skip}= {place} /{lalrpop.plain(text)}/\n" for it, place, (text, skip) in lines)
            assert diff(made[name], others).outcome is Outcome.CLEAN, (name, others, diff(made[name], others))


def run(name, grammar):
    """The status of the command, and what it writes."""
    with tempfile.TemporaryDirectory() as at:
        Path(at, name).write_text(grammar, encoding="utf-8")
        words = [sys.executable, "-B", "-m", "bajofeki_import", "lalrpop", name]
        done = subprocess.run(words, cwd=at, capture_output=True, encoding="utf-8", timeout=60)
    return f"{done.returncode} {done.stdout}{done.stderr}".strip()
