"""`pieces.py` makes of the lines of `tokens --json --recover` those of pieces.c. `pieces.py SEED TEXT` writes half a megabyte of mixed text,
the same for the same seed: fragments of the text, characters of many kinds and runs of them. `pieces.py SEED TEXT spoilt` changes
some of its bytes, so that it isn't UTF-8."""
import json
import random
import sys

if len(sys.argv) == 1:
    for piece in map(json.loads, sys.stdin):
        print(piece["rule"] or "!", piece["start"], piece["end"])
else:
    chance = random.Random(sys.argv[1])
    text = open(sys.argv[2], encoding="utf-8").read()
    mixed = []
    for _ in range(2500):
        at = chance.randrange(len(text))
        mixed.append(text[at : at + chance.randrange(1, 400)])
        mixed.append(chance.choice("\"'/*\\(){} \n\t0aZ_\u00e9\u03c3\u4e16\U0001f600\0") * chance.randrange(1, 9))
    mixed = bytearray("".join(mixed).encode())
    for _ in range(20000 * (len(sys.argv) > 3)):
        mixed[chance.randrange(len(mixed))] = chance.randrange(256)
    sys.stdout.buffer.write(mixed)
