"""Pages to look at, whole HTML documents without a script, which show what is invisible in a text too:

    bajofeki-report RULES FILE > page.html       a text: its tokens in colours, its faults, how many tokens each rule has
    bajofeki-report --check RULES > page.html    rules: what `tokens --check` finds, their least texts, their modes as pictures

Exit status: 0, or 1 if the page shows a fault, an open mode or a finding. Without a page standard error says why: 2 if rules clash or can't
be compiled, 3 if a line of RULES is bad, 4 for wrong arguments, 5 if memory ran out, 6 if a file can't be read or the page written.
"""
import json
import re
import subprocess
import sys
import unicodedata
import zlib
from html import escape
from pathlib import Path

from bajofeki import Columns, Kind, Lexer, Places, RulesError, RulesErrorKind, check, dot
from bajofeki_server import ERROR, RULE, findings, least_text
from bajofeki_words import kind_of

# The hue and the chroma of a kind, or of those whose names begin so. Of others the hue is made of the rule's name.
COLOURS = {"Keyword": (300, 0.15), "Keyword.Type": (195, 0.08), "Name": (255, 0.05), "Name.Function": (255, 0.13), "Name.Tag": (275, 0.14)}
COLOURS.update({"Name.Attribute": (235, 0.1), "Number": (55, 0.12), "String": (148, 0.12), "String.Regex": (25, 0.13)})
COLOURS.update({"Comment": (240, 0.03), "Comment.Preproc": (340, 0.13), "Operator": (25, 0.08), "Punctuation": (60, 0.03)})
FAULTS = {Kind.FAULT: "no rule matches", Kind.TOO_DEEP: "more than 1024 modes would lie below the top, so this isn't cut:"}
LINK = '<a href="#{}">{}:{}</a>'
CONTROLS = "NUL SOH STX ETX EOT ENQ ACK BEL BS TAB LF VT FF CR SO SI DLE DC1 DC2 DC3 DC4 NAK SYN ETB CAN EM SUB ESC FS GS RS US".split()
# Marks and letters that are invisible, though Python would print them.
UNSEEN = re.compile("[\u034f\u115f\u1160\u17b4\u17b5\u180b-\u180f\u2800\u3164\ufe00-\ufe0f\uffa0\U000e0100-\U000e01ef]")
# The colours of rules have one lightness in each theme, so that each is readable.
STYLE = """
:root { color-scheme: light dark; --back: #fff; --box: #f4f5f7; --edge: #d5d9df; --text: #1d2126; --quiet: #5b6470; --link: #0b57a8;
  --bad: #8c0a1e; --bad-back: #ffdfdc; --here: #fff3bf; --light: .46; --pale: .525 }
@media (prefers-color-scheme: dark) { :root { --back: #15181c; --box: #1f2329; --edge: #3a414b; --text: #e3e6ea; --quiet: #9ca5b1;
  --link: #8ab8ff; --bad: #ffd3cf; --bad-back: #6a1d22; --here: #332d12; --light: .82; --pale: .7 } }
body { margin: 0 auto; max-width: 72rem; padding: 1.5rem max(.8rem, 3vw) 4rem; background: var(--back); color: var(--text);
  font: 1rem/1.5 system-ui, sans-serif; overflow-wrap: break-word }
h1 { margin: 0; font-size: 1.5rem; line-height: 1.25 } h2, summary { margin: 1.8rem 0 .5rem; font-size: 1.05rem; font-weight: 600 }
a { color: var(--link); text-underline-offset: .15em } small, .quiet { color: var(--quiet); font-size: .875rem }
code, pre, .legend b { font: .875rem/1.6 ui-monospace, SFMono-Regular, Menlo, Consolas, "DejaVu Sans Mono", monospace; tab-size: 4 }
p { margin: .25rem 0 } pre { margin: 0; white-space: pre-wrap } h1, code, pre, pre span, mark { unicode-bidi: isolate }
i { padding: 0 .2em; border: 1px solid; border-radius: .25em; font-style: normal; font-size: .8em } mark:target { outline: 2px solid }
mark { background: var(--bad-back); color: var(--bad); border-radius: .15em } figure { padding: .8rem; border: 1px solid var(--edge) }
.line { display: block; position: relative; overflow: hidden; padding-left: calc(var(--digits) * 1ch + 1.5ch) }
.line > a { position: absolute; left: 0; width: calc(var(--digits) * 1ch); text-align: right; color: var(--quiet); text-decoration: none }
.line:target, .line > a:hover { background: var(--here) } [class^=r] { color: oklch(var(--light) var(--chroma) var(--hue)) }
.legend { display: grid; grid-template-columns: repeat(auto-fill, minmax(min(100%, 19rem), 1fr)); gap: .1rem 2.5rem; padding: 0 }
.legend li { display: flex; gap: .6rem; align-items: baseline; overflow-wrap: anywhere; font-size: .875rem }
.line small { float: right; margin: 0 0 0 2ch } .legend span + span { margin-left: auto; font-variant-numeric: tabular-nums }
.box { margin: .6rem 0; padding: .5rem .8rem; border-left: 4px solid var(--edge); background: var(--box); list-style: none }
.bad { border-color: var(--bad) } div.box { white-space: pre-line } ul.box { max-height: 24rem; overflow: auto }
table, figure { display: block; margin: .8rem 0; border-collapse: collapse; overflow-x: auto }
th, td { padding: .3rem 1.2rem .3rem 0; border-bottom: 1px solid var(--edge); text-align: left; vertical-align: top }
.line > a, .line small { user-select: none } svg text, svg [fill=black] { fill: currentColor } svg [stroke=black] { stroke: currentColor }
"""
PAGE = """<!DOCTYPE html>
<html lang="en"><head><meta charset="utf-8"><meta name="viewport" content="width=device-width, initial-scale=1">
<meta http-equiv="Content-Security-Policy" content="default-src 'none'; style-src 'unsafe-inline'">
<title>{}</title><style>{}</style></head>
<body><h1>{}</h1>{}</body></html>
"""


def shown(text, kept="\t"):
    r"""A text as HTML, in which each invisible character but `kept` has a form that one sees, and a byte that isn't UTF-8 too.

    >>> shown("<\u202e\0"), shown("\te\u0301"), shown("\udcff")
    ('&lt;<i title="RIGHT-TO-LEFT OVERRIDE">U+202E</i><i title="NUL">NUL</i>', '\te\u0301', '<i title="\\xff">\\xff</i>')
    """
    if text.isascii() and text.isprintable():
        return escape(text)
    html, is_seen = "", False
    for it in text:
        number, is_mark = ord(it), unicodedata.category(it)[0] == "M"
        # A mark stands above what is seen before it in the text, but not above what comes before the text.
        is_seen = it in kept or it.isprintable() and not UNSEEN.match(it) and (is_seen or not is_mark)
        form = CONTROLS[number] if number < 32 else f"\\x{number - 0xDC00:02x}" if 0xDC80 <= number <= 0xDCFF else f"U+{number:04X}"
        html += escape(it) if is_seen else f'<i title="{unicodedata.name(it, form)}">{form}</i>'
    return html


def quoted(text):
    return f"<code>&quot;{shown(text[:60], '')}&quot;</code>" + " .." * (len(text) > 60)


def page(name, rules, parts):
    """A page. The rules have the classes r0, r1 .., each a colour of its name; those of comments and of what is skipped are pale."""
    styles = STYLE
    for number, (name_of_rule, is_skipped) in enumerate(rules):
        kind, chance = kind_of(name_of_rule), zlib.crc32(name_of_rule.encode())
        hue, chroma = COLOURS.get(kind) or COLOURS.get(kind.partition(".")[0]) or (chance % 360, 0.1)
        more = "--light: var(--pale); " * (is_skipped or kind == "Comment") + "font-weight: 600; " * kind.startswith("Keyword")
        styles += f".r{number} {{ --hue: {hue + chance % 15 - 7}; --chroma: {chroma / (1 + is_skipped)}; {more}}}\n"
    heading = shown(name, "")
    return PAGE.format(re.sub("</?i[^>]*>", "", heading), styles, heading, "".join(parts))


def numbered(lines):
    """Lines of HTML, each a str or a list of them, with their numbers, but no empty one after the last line feed."""
    lines = lines[: -1 if lines[1:] and not lines[-1] else None]
    rows = (f'<span class="line" id="L{at}"><a href="#L{at}">{at}</a>{"".join(line)}\n</span>' for at, line in enumerate(lines, 1))
    return f'<pre translate="no" style="--digits: {len(str(len(lines)))}">{"".join(rows)}</pre>\n'


def read_rules(rules):
    """The lines of a file, and of each rule the number of its line and its match of RULE."""
    lines = [it.rstrip("\r") for it in rules.decode("utf-8-sig").split("\n")]
    found = ((number, RULE.fullmatch(line)) for number, line in enumerate(lines))
    return lines, [(number, rule) for number, rule in found if rule and rule[2].split() != ["part"]]


def act(stack, actions, place):
    """Does what a token does to a stack of modes, each with the place of the token that put it on top."""
    for kind, mode in actions:
        if kind == "push":
            stack.append((mode, place))
        elif kind == "mode":
            stack[-1] = mode, stack[-1][1]
        elif len(stack) > 1:
            stack.pop()


def put(lines, start, text, end):
    """Puts a text between tags at the end of lines of HTML. Only its first part keeps an id, and a fault shows its line feeds."""
    for part in re.findall("[^\n]*\n|[^\n]+", text):
        html = shown(part if end == "</mark>" else part.rstrip("\n"))
        lines[-1].append(html and start + html + end)
        lines += [[]] * part.endswith("\n")
        start = re.sub(' id="[^"]*"', "", start)


def text_page(rules, rules_name, data, name):
    """The page of a text, and the status."""
    lexer, data = Lexer(rules), data[3 * data.startswith(b"\xef\xbb\xbf") :]
    named = [(it.name, it.is_skipped) for it in lexer.rules]
    numbers = {rule: number for number, rule in enumerate(dict.fromkeys(named))}
    kinds = {rule: "skipped, " * rule[1] + kind_of(rule[0]) for rule in numbers}
    lines, faults, counts, stack, places = [[]], [], dict.fromkeys(numbers, 0), [(lexer.modes[0], None)], Places(data)
    for piece in lexer.pieces(data):
        place, text = places.at(piece.start), piece.text.decode("utf-8", "surrogateescape")
        where = (f"mode {stack[-1][0]}, " if len(lexer.modes) > 1 else "") + "{}:{}".format(*place)
        if piece.rule is None:
            faults.append(f"<li>{LINK.format(f'F{len(faults) + 1}', *place)} {FAULTS[piece.kind]} {quoted(text)}</li>\n")
            put(lines, f'<mark id="F{len(faults)}" title="{FAULTS[piece.kind]} {where}">', text, "</mark>")
            continue
        counts[(rule := named[piece.number])] += 1
        put(lines, f'<span class="r{numbers[rule]}" title="{rule[0]}, {kinds[rule]}, {where}">', text, "</span>")
        act(stack, lexer.rules[piece.number].actions, place)
    skipped = sum(counts[rule] for rule in counts if rule[1])
    parts = [f"<small>Tokens: {sum(counts.values()):,}, skipped: {skipped:,}, faults: {len(faults):,}, by {shown(rules_name)}</small>\n"]
    if len(stack) > 1:
        mode, place = stack[-1]
        parts.append(f'<p class="box bad">The text ends in mode {mode}, entered at {LINK.format(f"L{place.line}", *place)}.</p>\n')
    parts += [f'<ul class="box bad">{"".join(faults)}</ul>\n'] * bool(faults)
    row = '<li><b class="r{}">{}</b> <span class="quiet">{}</span> <span>{:,}</span></li>\n'
    rows = (row.format(numbers[it], it[0], kinds[it], counts[it]) for it in sorted(numbers, key=lambda it: -counts[it]))
    parts += ['<details open><summary>Rules, with how many tokens each has</summary>\n<ul class="legend">', *rows, "</ul></details>\n"]
    return page(name, numbers, [*parts, "<h2>Text</h2>\n", numbered(lines)]), int(len(stack) > 1 or bool(faults))


def check_page(rules, name):
    """The page of rules, and the status."""
    checked, numbers = check(rules, name, True), {}
    found = [json.loads(it) for it in checked.findings]
    if checked.outcome.value > 1 and all(it["kind"] != "clash" for it in found):
        Lexer(rules)  # which says why there is none
    lines, read = read_rules(rules)
    said = findings("\n".join(lines), Columns.CHARACTERS)
    parts = [f"<small>Findings: {len(said):,}</small>\n"]
    for it in said:
        number, at = (it["range"]["start"][part] for part in ("line", "character"))
        parts.append(f'<div class="box{" bad" * (it["severity"] == ERROR)}">{LINK.format(f"L{number + 1}", number + 1, at + 1)} ')
        parts.append(re.sub(r"of line (\d+)", r'of <a href="#L\1">line \1</a>', shown(it["message"], "\n")))
        parts.append(f"<pre>{shown(lines[number][:at])}<mark>{shown(lines[number][at:])}</mark></pre></div>\n")
    automata = [it for it in found if it["kind"] == "automaton"]
    if automata:
        # The one mode of a file isn't named there.
        automata = [{"mode": Lexer(rules).modes[0], **it} for it in automata]
        rows = ("<tr><td>{mode}<td>{least_states:,}<td>{}\n".format(read_past(**it), **it) for it in automata)
        graphs = re.findall("^digraph .*?^}", "\n".join(dot(rules, name=name).findings), re.M | re.S)
        parts += ["<h2>Modes</h2>\n<table><tr><th>Mode<th>States<th>Characters read past a token\n", *rows, "</table>\n"]
        parts += map(picture, automata, graphs)
    html = [shown(it) for it in lines]
    for at, rule in read:
        is_skipped = rule[2].split()[:1] == ["skip"]
        number, word = numbers.setdefault((rule[1], is_skipped), len(numbers)), least_text(lines, rule[3])
        front, rest, least = shown(lines[at][: rule.start(1)]), shown(lines[at][rule.end(1) :]), "no text" if word is None else quoted(word)
        html[at] = f'<small>{least}</small>{front}<b class="r{number}">{rule[1]}</b>{rest}'
    return page(name, numbers, [*parts, "<h2>Rules, each with its least text</h2>\n", numbered(html)]), int(bool(said))


def read_past(past, rules=(), after=None, when=None, **_):
    count = "any number, past a token of " + ", ".join(rules) if past is None else f"{past:,}"
    return count if when is None else f"{count}, as after {quoted(after)} when {quoted(when)} follows"


def picture(automaton, graph):
    """The image of a mode, or why there is none."""
    why, fonts = "has too many states for a picture", (f"-{of}font{it}" for of in "GNE" for it in ("name=Helvetica", "size=12"))
    try:
        if automaton["least_states"] <= 64:
            words = ["dot", "-Tsvg", "-Gbgcolor=transparent", *fonts]
            svg = subprocess.run(words, input=graph, capture_output=True, encoding="utf-8", timeout=20, check=True).stdout
            # Names of parts of one image would be those of others too. 12 points are large, where the page's text has 16 pixels.
            svg = re.sub(r' id="[^"]*"|<title>.*?</title>|(?<=\d)pt(?=")', "", svg[svg.index("<svg") :])
            return f'<figure tabindex="0"><figcaption>Mode {automaton["mode"]}</figcaption>{svg}</figure>\n'
    except (OSError, subprocess.SubprocessError):
        why = "would be drawn here by dot, a program of Graphviz, which isn't installed or fails"
    return f'<p class="quiet">Mode {automaton["mode"]} {why}.</p>\n'


def refusal(error, rules, name):
    """What `tokens` says of rules that have no lexer, and the status."""
    if error.kind is RulesErrorKind.OUT_OF_MEMORY:
        return "tokens: out of memory\n", 5
    checked = check(rules, name)
    found = [f"tokens: {it}\n" for it in checked.findings] if checked.outcome.value > 1 else [f"tokens: {name}: {error}\n"]
    return checked.message + "".join(found), max(2, checked.outcome.value)


def main():
    words = sys.argv[1:]
    is_check = words[:1] == ["--check"]
    if len(words) != 2 or any(it.startswith("-") for it in words[is_check:]):
        print(__doc__.strip(), file=sys.stdout if words in (["-h"], ["--help"]) else sys.stderr)
        return 0 if words in (["-h"], ["--help"]) else 4
    try:
        given = [it for word in words[is_check:] for it in (Path(word).read_bytes(), word.encode("utf-8", "replace").decode())]
        made, status = (check_page if is_check else text_page)(*given)
        with open(1, "wb", closefd=False) as out:
            out.write(made.encode())
        return status
    except BrokenPipeError:
        return 0
    except RulesError as error:
        said, status = refusal(error, *given[:2])
    except OSError as error:
        said, status = f"tokens: {error.filename or 'the page'}: {error.strerror}\n", 6
    except MemoryError:
        said, status = "tokens: out of memory\n", 5
    sys.stderr.write(re.sub("^tokens: ", "bajofeki-report: ", said, flags=re.M))
    return status


if __name__ == "__main__":
    sys.exit(main())
