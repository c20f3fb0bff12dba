"""logs KIND RECORDS: a log for docs/COST.md, of so many records of 4,096 bytes: good (frames back to back, most of 8 bytes, some of up to 64, cut at
a record's end), noise or zeros."""
import os
import random
import sys

sys.path.insert(0, os.path.join(os.path.dirname(os.path.abspath(__file__)), "..", "tests"))
from linecount_model import frame, recorded  # noqa: E402

SIZE = 4096


def good(chance, size):
    made = b""
    while len(made) < size:
        made += frame(chance, chance.randrange(5, 65) if chance.randrange(4) == 0 else 8)
    return made[:size]


KINDS = {"good": good, "noise": lambda chance, size: chance.randbytes(size), "zeros": lambda chance, size: bytes(size)}

if __name__ == "__main__":
    kind, records = sys.argv[1], int(sys.argv[2])
    chance = random.Random(5)
    for _ in range(records):
        sys.stdout.buffer.write(recorded(KINDS[kind](chance, SIZE)))
