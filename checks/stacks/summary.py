#!/usr/bin/env python3
"""summary.py FRAMES [LOST]: prints what `framehop-stacks` says of a recording, by its blocks and by how many records were lost."""

import re
import sys
from collections import Counter

# no unwind data tells these frames
UNSURE = re.compile(r" \[(frame-pointer|guess)\]$")


def samples(count):
    return f"{count} sample" + "s" * (count != 1)


def main():
    with open(sys.argv[1], encoding="utf-8") as file:
        blocks = [block.splitlines() for block in file.read().split("\n\n") if block]
    lost = sys.argv[2] if len(sys.argv) > 2 else "0"
    unsure = sum(any(UNSURE.search(line) for line in block) for block in blocks)
    guessed = sum(any(line.endswith(" [guess]") for line in block) for block in blocks)
    print(f"{samples(len(blocks))}, {lost} records lost by the kernel")
    print(f"{samples(unsure)} with frames that no unwind data tells")
    if guessed:
        print(f"{samples(guessed)} with a caller by [guess]")
    print("how the stacks ended:")
    # the end of a walk, without an address after it
    for end, count in sorted(Counter(block[-1][1:-1].split(" ")[0] for block in blocks).items()):
        print(end, count)


main()
