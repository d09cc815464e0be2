"""Random files of rules, and texts for them: the same at each run."""
import random
import re

COUNT = 1000
ATOMS = ["a", "b", "c", "d", "x", "é", "[a-c]", "[^a]", "(ab|c)", r"\s", "[0-9]", "漢|d"]


def pattern(chance):
    return "".join(chance.choice(ATOMS) + chance.choice(["", "", "", "*", "+", "?"]) for _ in range(chance.randint(1, 4)))


def rule(chance, number, actions):
    """A rule of a precedence of its own."""
    literal = "".join(chance.choices("abcd(", k=chance.randint(1, 3)))
    text = chance.choice([f"/{pattern(chance)}/"] * 3 + [f"'{literal}'", "anycase 'ab'", "from '<' to '>'"])
    return f"{chance.choice('ABC')}{number}{chance.choice(['', '', ' skip'])}{chance.choice(actions)} = {number} {text}\n"


def rules(chance):
    """Some rules, at times with two modes. Of ten files one lacks a character, and in one all rules have one precedence."""
    modes = chance.random() < 0.3
    actions = ["", "", "", " push M", " pop", " mode M", " push INITIAL"] if modes else [""]
    lines = [rule(chance, number, actions) for number in range(chance.randint(1, 6))]
    text = "".join(lines + ["[M]\n", *(rule(chance, number, actions) for number in range(6, 9))] * modes)
    at = chance.randrange(len(text))
    spoilt = {0: text[:at] + text[at + 1 :], 1: re.sub("= . ", "= 1 ", text)}
    return spoilt.get(chance.randrange(10), text)


def text(chance):
    return "".join(chance.choices("aabbccddé漢x01 \n\t\"\\\0<>(?😀AB", k=chance.choice([0, 1, 5, 20, 60, 700])))


def make(folder):
    """Makes the files 0.rules, 0.txt, 1.rules, .., and a text that puts too many modes on top of one another. Gives their names in turn."""
    chance = random.Random(20261128)
    cases = {str(number): (rules(chance), text(chance)) for number in range(COUNT)}
    cases["deep"] = ("OPEN push INITIAL = '('\n", "?" + 1100 * "(")
    for name, parts in cases.items():
        for ending, part in zip(("rules", "txt"), parts):
            (folder / f"{name}.{ending}").write_bytes(part.encode())
    return [f"{name}.{ending}" for name in cases for ending in ("rules", "txt")]
