"""The states of a Pygments lexer as modes, and their rules with precedences that fall in their order.

Pygments takes the first rule of a state that matches, and of its matches the one that Python's `re` finds first; a lexer of rules takes the
longest match, and of the rules that have it the first. So where Pygments changes the state without a character, because no rule before that
matches, the rules of the state that it comes to stand after those. A character that no rule matches is a fault, which leaves the modes as
they are: Pygments keeps a change that it made before it without a character, and a line feed puts it back into `root`. A rule that Pygments
cuts into groups is one token.
"""
import importlib
import re

from .python_re import LOOKS, Unsaid, text_of, text_without_look
from .rules import Rules, identifier


def name_of(action):
    """The name of a rule with this action, and whether it's one token in place of several: then it has the first type of its groups that is
    more than text."""
    kind, types = getattr(action, "__qualname__", ""), [action]
    is_one = kind in ("bygroups.<locals>.callback", "using.<locals>.callback")
    if is_one:
        types = [it for it in action.__closure__[0].cell_contents if isinstance(it, tuple)] if kind[0] == "b" else []
        types = [it for it in types if it[:1] != ("Text",)] + [("Text",)]
    if not isinstance(types[0], tuple):
        raise Unsaid(f"{kind or action} decides")
    return "_".join(types[0]) or "Token", is_one


def steps(change):
    """The steps of a change of state.

    >>> steps(-2), steps("#push"), steps(None)
    (('#pop', '#pop'), ('#push',), ())
    """
    return ("#pop",) * -change if isinstance(change, int) else (change,) if isinstance(change, str) else change or ()


class Modes:
    """The modes of a lexer: states, each with the state below it if a change without a character may pop it and is known, else None."""

    def __init__(self, states):
        self.states, self.names = states, {}
        self.needs = {state for state in states for it in states[state] if "#pop" in steps(it[2]) and is_silent(it)}
        self.name(("root", None))

    def name(self, mode):
        """The name of a mode, which is then one of this lexer."""
        name = identifier("_in_".join(re.sub(r"\W", "_", it) for it in mode if it))
        while mode not in self.names and name in self.names.values():
            name += "_"
        return self.names.setdefault(mode, name)

    def changed(self, change, mode):
        """What a change does, and the mode after it, None if that isn't known.

        >>> modes = Modes({"root": [], "a-b": [], "a_b": []})
        >>> modes.changed(("a-b", "#push", "#pop", "a_b"), ("root", None))
        (['push a_b', 'push a_b', 'pop', 'push a_b_'], ('a_b', None))
        """
        actions = []
        for it in steps(change):
            if it == "#pop":
                actions, mode = [*actions, "pop"], (mode[1], None) if mode and mode[1] else None
            elif mode is None and it == "#push":
                raise Unsaid("its state isn't known before it runs")
            else:
                state = mode[0] if it == "#push" else it
                mode = state, mode[0] if mode and state in self.needs else None
                actions.append(f"push {self.name(mode)}")
        return actions, mode

    def entries(self, mode, before=(), seen=()):
        """The entries that apply in a mode, each with what is done before it, and in which mode. Those of the mode that a change without a
        character leads to come after that."""
        for entry in self.states[mode[0]]:
            target = None
            if is_silent(entry):
                try:
                    actions, target = self.changed(entry[2], mode)
                except Unsaid:
                    pass
                if not target:
                    entry = entry[0], None, entry[2]
            if not target or entry[1]:
                yield entry, before, mode
            if target:
                if target not in (*seen, mode):
                    yield from self.entries(target, (*before, *actions), (*seen, mode))
                return


def is_silent(entry):
    """Whether it may change the state without a character, wherever it comes to it."""
    match, action, change = entry
    try:
        return action is None or bool(change and match("") and name_of(action) and text_of(match.__self__))
    except Unsaid:
        return False


def rule_of(entry, before, mode, modes, others=None):
    """Name and actions, the text, and words that it leaves out; one that ends with a look is said by the patterns of others, if given."""
    match, action, change = entry
    if action is None:
        raise Unsaid("it changes the state without a character")
    head = name_of(action), [*before, *modes.changed(change, mode)[0]]
    return (*head, *((text_of(match.__self__), []) if others is None else text_without_look(match.__self__, others)))


def rules_of_mode(entries, modes):
    """For each entry what `rule_of` gives, or the reason why it can't be said."""
    said, others = [None] * len(entries), None
    for _ in range(2):
        for place, entry in enumerate(entries):
            try:
                said[place] = said[place] if isinstance(said[place], tuple) else rule_of(*entry, modes, others)
            except Unsaid as reason:
                said[place] = said[place] or str(reason)
        others = [entry[0].__self__ for (entry, _, _), it in zip(entries, said) if isinstance(it, tuple)]
    return said


def write_mode(rules, mode, modes, told):
    """Writes the rules of a mode, and what is left out of a state, unless it's told. Gives how many rules are one token in place of
    several."""
    rules.section(modes.names[mode])
    entries = [*modes.entries(mode)]
    # A pattern of the state comes before the same one of another state.
    own = {entry[0].__self__ for entry, _, owner in entries if owner is mode}
    entries = [it for it in entries if it[2] is mode or it[0][0].__self__ not in own]
    said, left = rules_of_mode(entries, modes), set()
    for precedence, ((match, _, change), _, owner), it in zip(range(len(entries), 0, -1), entries, said):
        (name, _), actions, text, words_left = it if isinstance(it, tuple) else (("", False), [], "", [match.__self__.pattern])
        if text:
            rules.rule(name, text, precedence, actions=actions)
        # What is left out here may be said in another mode of its state: where it's known which state is below, say.
        pattern = " ".join(f"/{'|'.join(words_left)}/ {change or ''}".split())
        if words_left and (owner[0], pattern) not in told:
            left.add((owner[0], pattern))
            shown = "".join(it if it.isprintable() else ascii(it)[1:-1] for it in pattern[:200])
            rules.leave_out(owner[0], shown + " .." * (len(pattern) > 200), LOOKS if text else it)
    told |= left
    return sum(isinstance(it, tuple) and it[0][1] for it in said)


def rules_of(name):
    """The rules of a lexer, as `pygments.lexers.data:YamlLexer`."""
    from pygments.lexer import ExtendedRegexLexer, RegexLexer

    module, _, name_of_class = name.partition(":")
    lexer = getattr(importlib.import_module(module), name_of_class)
    states = lexer()._tokens if isinstance(lexer, type) and issubclass(lexer, RegexLexer) and lexer.tokens else {}
    if "root" not in states:
        raise ValueError("this is no RegexLexer of Pygments")
    rules = Rules(name)
    rules.comment("Pygments takes the first rule that matches; here the longest match wins, and of equally long ones the first rule.")
    if lexer.get_tokens_unprocessed not in (RegexLexer.get_tokens_unprocessed, ExtendedRegexLexer.get_tokens_unprocessed):
        rules.leave_out("get_tokens_unprocessed", "its own code", "it may change what the states give")
    modes, count, written, told = Modes(states), 0, 0, set()
    while written < len(modes.names):
        count += write_mode(rules, [*modes.names][written], modes, told)
        written += 1
    rules.comment(f"{count} rules make one token where Pygments makes several.")
    return rules
