"""What the scripts over rows that are stored share: how a file of them is read.

A file has blocks, with an empty line between two. A block begins with what it is about, in lines that begin with `# `, and
with its parts, as `plan: ..` and `script: ..`; its rows stand behind them.

In a part and a row `<100 times ab>` stands for so many times `ab`, inner ones first; `<100 numbered a#b>` for so many texts, in
which `#` is a number from 0 on, and `<100 numbered down a#b>` for the same with the last one first; `<1 line feed>` for a line
feed, and `<byte ff>` for that byte."""

import os
import re
from collections import namedtuple

HERE = os.path.dirname(os.path.abspath(__file__))

# What says that there are so many texts.
SPELLED = re.compile("<([0-9]+) (times|numbered down|numbered) ([^<>]*)>")

Block = namedtuple("Block", "place parts rows")


def blocks_of(folder, names):
    """The blocks of all files in that folder of the examples, whose parts have these names. A part has a list of the texts
    that stand there."""
    path = f"{HERE}/../examples/{folder}"
    for file in sorted(os.listdir(path)):
        with open(f"{path}/{file}", newline="\n") as text:
            for number, block in enumerate(text.read().removesuffix("\n").split("\n\n"), 1):
                parts, rows = {}, []
                for line in block.split("\n"):
                    name, _, part = line.partition(": ")
                    if name in names and not rows:
                        parts.setdefault(name, []).append(part)
                    elif not line.startswith("# ") or rows:
                        rows.append(line)
                yield Block(f"examples/{folder}/{file}, block {number}", parts, rows)


def spelled(found):
    """So many texts, for what says that there are so many."""
    numbers = range(int(found[1]))
    if found[2] == "times":
        return found[3] * len(numbers)
    return "".join(found[3].replace("#", str(it)) for it in (numbers if found[2] == "numbered" else reversed(numbers)))


def bytes_of(text):
    """The bytes that a text stands for."""
    text = text.replace("<1 line feed>", "\n")
    while SPELLED.search(text):
        text = SPELLED.sub(spelled, text)
    parts = re.split("<byte ([0-9a-f]{2})>", text)
    return b"".join(bytes.fromhex(it) if number % 2 else it.encode() for number, it in enumerate(parts))
