r"""Random files of flex. Where flex and a C compiler are installed, flex's lexer cuts random texts as the imported rules do.

>>> for seed in range(6):
...     check(random.Random(seed))
>>> check_loops(random.Random(6))
>>> [it for it in MISSES if len(left_out(f'"/*" {{ int c; {it} }}')) != 1]
[]
>>> left_out(f'"/*" {LOOP}\n"/" return A;\n[*]+"/" |\n"/*" return B;'), [it for it in NOT_ALONE if len(left_out(it)) != 1]
([], [])
>>> skip = f"void skip(void) {LOOP}\n"
>>> [len(left_out(f'"/*" skip();\n%%\n{it}')) for it in (skip, f"#if SHORT\nvoid skip(void) {{ }}\n#else\n{skip}#endif\n")]
[0, 1]
"""
import random
import shutil
import subprocess
import tempfile
from pathlib import Path

from bajofeki import Lexer
from bajofeki_import.flex import rules_in

# Each piece means something else, or nothing, in other languages of patterns.
PIECES = ["\\ ", '(?x:a  "b"/*)*/[k])'] + r"""
a b k Z _ 0 - ~ & < > = ! # ' @ : ; , % ] \n \x41 \102 \b \- \. \/ \^ \$ \" $a a^ . "a.b" "[*" "\n\"" "/" "k" "|" "{D}"
[abk] [^a\n] [a-k] []a] [^]b] [a-] [-a] [&&a] [a~~b] [[a] [+--] [\x41-\132] [[:alpha:]0] [^[:space:]] [[:^digit:]b] [a-z]{-}[b-d]
[b]{+}[\n] [^k]{-}[^b-z] [$.*^] [{"}|] ["/] {D} {E-1} (?i:k[b-z]"Q") (?s:.) (?i:a(?-i:b)) (?#)a (?i:{D}[[:upper:]]) (?-s:.)
(?i:[^k]) (?i:[a-bY-Z]) [\0-\37] [A-z] (?i:[!-C])
""".split()
HEAD = r"""
%{
#include <stdio.h>
#include <string.h>
static char *text, *rest, *end;
static int line;
#define YY_INPUT(to, size, room) { size = end - rest < room ? end - rest : room; memcpy(to, rest, size); rest += size; }
/* What comes after yy_c_buf_p was given, but isn't matched yet. */
#define PLACE (rest - (YY_CURRENT_BUFFER->yy_ch_buf + yy_n_chars - yy_c_buf_p) - yyleng)
#define YY_USER_ACTION printf("%d,%d ", yy_act, (int) (PLACE - text));
#define TO(x) do { BEGIN x; } while (0)
%}
%option noyywrap stack noyy_top_state 8bit
D       a|b{E-1}?
E-1     [k"]+
"""
MAIN = r"""
%%
int main(void) {
    size_t room = 0;
    for (ssize_t size; (size = getdelim(&text, &room, 0x7f, stdin)) > 0; printf("\n")) {
        rest = text;
        end = text + size - 1;
        yyrestart(NULL);
        BEGIN(INITIAL);
        yylex();
    }
}
"""
LETTERS = "akKQZz_019 \n\t\b\x1f-~&<>=!#'@:;,%./\"[]{}()*$^+|\\Ab"

# What actions read after "/*". As flex 2.6.4 never gives EOF, texts for those that ask for it have an end of theirs.
LOOPS = r"""
while ((c = input()) != 0 && c != '\n') ++line;
while ((c = input()) != EOF) if (c == '\n') { unput(c); break; }
while ((c = input()) != 0) { if (c == '\n') ++line; else if (c == '*') { if ((c = input()) == '/') break; else unput(c); } }
for (;;) { while ((c = input()) != '*' && c != EOF) ; while (c == '*') c = input(); if (c == '/') break; if (c == EOF) { free(0); break; } }
c = input(); while (1) { while (c != '*' && c != 0) c = input(); if (c == 0) break; if ((c = input()) == '/') break; }
c = input(); if (c != '\0' && c != EOF) unput(c);
while ((c = input()) == '/' && (c = input()) != '\n') { if (c == '"') continue; if (c == 0) break; } if (c != 0 && c != EOF) unput(c);
"""[1:].splitlines()
MISSES = r"""
while ((c = input()) != 0 && c != '\n') count(c);
while ((c = input()) != 0 && c != '\n') ; unput(c);
while ((c = input()) != 0 && c != '\n') ; yyless(1);
while ((c = input()) != 0 && c != last) ;
while ((c = input()) != 0) if (c == '\n') return LINE;
while ((c = input()) != 0) if (c == '\n') BEGIN(INITIAL);
while ((c = input()) != 0 && c != '\n') c = '*';
while ((d = input()) != 0 && c != '\n') ;
while ((c = input()) != 0 && c != '\n') unput('*');
while ((c = input()) != 0) { unput(c); unput(c); }
while ((c = input()) != '\n' && c != EOF) ; if (c == EOF) unput(c);
if (deep) while ((c = input()) != 0 && c != '\n') ;
if ((c = input()) == '*') while (c == '*') ;
do c = input(); while (c != 0 && c != '\n');
for (int i = 0; i < 9; i++) c = input();
unput(c);
"""[1:].splitlines()
LOOP = "{ int c; %s }" % LOOPS[0]
# Another rule, or the same one, may match more, or is an earlier one.
NOT_ALONE = [f"{it} {LOOP}" for it in ('"/"[*]?', "(ab)+")] + [f'"/*!" ;\n"/*" {LOOP}', f'"/"[*] ;\n"/*" {LOOP}']
NOT_ALONE += [f'<*>"/*" {LOOP}\n[/*]+ return A;', f'"/" {LOOP}\n"/*" {LOOP}\n']


def pattern(chance, depth):
    kind = chance.randrange(8)
    if depth == 0 or kind < 3:
        return chance.choice(PIECES)
    if kind < 6:
        return pattern(chance, depth - 1) + pattern(chance, depth - 1)
    if kind == 6:
        return f"({pattern(chance, depth - 1)}|{pattern(chance, depth - 1)})"
    return pattern(chance, depth - 1) + chance.choice("* + ? {2} {1,2} {0,1} {1,} ?+ {2}?".split())


def file_of(chance, count):
    """A file whose start condition Si begins after the character 16 + i. Those with odd numbers are pushed, and only they are popped."""
    pieces, states = PIECES[:], range(count)
    chance.shuffle(pieces)
    enter = ["BEGIN(S%d);", "yy_push_state(S%d);", "TO(S%d);", "yy_push_state(S%d);"]
    rules = [f"\\{16 + it:o} {{ {enter[it % 4] % it} }}" for it in states] + [".|\\n ;"]
    for it in states:
        actions = [";", "|", "/* none */", "{ printf(\"\"); }", "yy_pop_state();" if it % 2 else "TO(INITIAL);"]
        parts = [*pieces[it::count], pattern(chance, 2), pattern(chance, 3)]
        rules += [f"<S{it}>({part}) {chance.choice(actions)}" for part in parts] + [f"<S{it}>.|\\n ;"]
    kinds = "".join(f"%{chance.choice('xxs')} S{it}\n" for it in states)
    return HEAD[1:] + chance.choice(["", "%option caseless\n"]) + kinds + "%%\n", rules


def texts_of(chance, count):
    """Texts for each start condition, with each letter first."""
    return [chr(16 + it) + first + "".join(chance.choices(LETTERS, k=chance.randrange(9))) for it in range(count) for first in LETTERS]


def flex_cut(at, file, texts):
    """The numbers of rules that flex finds in each text, and where they begin."""
    Path(at, "a.l").write_text(file)
    subprocess.run(["flex", "-w", "-o", "a.c", "a.l"], cwd=at, check=True)
    subprocess.run(["cc", "-w", "a.c", "-o", "a"], cwd=at, check=True)
    found = subprocess.run([f"{at}/a"], input="".join(it + "\x7f" for it in texts).encode(), stdout=subprocess.PIPE, check=True, timeout=60)
    return [[tuple(map(int, it.split(b","))) for it in line.split()] for line in found.stdout.splitlines()]


def left_out(rules, head="%%\n"):
    """What isn't imported of the rules. An empty match is never taken where a start condition has a rule for any character."""
    return [it for it in rules_in(head + rules, "a.l").lines if ": left out: " in it and "an empty match" not in it]


def compare(head, rules, texts):
    """Flex and the imported rules cut the texts alike."""
    left, first = left_out("\n".join(rules), head), head.count("\n")
    assert not left, left
    lexer = Lexer(rules_in(head + "\n".join(rules), "a.l").text())
    own = [[(int(it.rule.split("_")[1]) - first, it.start) for it in lexer.pieces(text.encode())] for text in texts]
    if shutil.which("flex") and shutil.which("cc"):
        with tempfile.TemporaryDirectory() as at:
            found = flex_cut(at, head + "\n".join(rules) + MAIN, texts)
        wrong = [(text, mine, its) for text, mine, its in zip(texts, own, found) if mine != its]
        assert len(found) == len(texts) and not wrong, (wrong[:3], [rules[it[0] - 1] for cut in wrong[:1] for it in cut[1] + cut[2]])


def check(chance, count=16):
    compare(*file_of(chance, count), texts_of(chance, count))


def check_loops(chance):
    """Each loop has a start condition."""
    states = range(len(LOOPS))
    rules = [f"\\{16 + it:o} BEGIN(S{it});" for it in states] + [f'<S{it}>"/*" {{ int c; {LOOPS[it]} }}' for it in states]
    ends = [["**/\n"] + [""] * ("EOF" not in it) for it in LOOPS]
    parts = ["/*", *'/*\n\0"x']
    texts = [chr(16 + it) + "".join(chance.choices(parts, k=chance.randrange(12))) + end for it in states for end in ends[it] * 99]
    compare(HEAD[1:] + "".join(f"%x S{it}\n" for it in states) + "%%\n", [*rules, r"<*>.|\n ;"], texts)
