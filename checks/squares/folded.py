"""folded.py KIND ITEMS FOLDER: folded stacks with many items of one kind, each made to cost a square, or a picture beyond all measure,
where a program is careless.

Each function of KINDS returns the lines of a number of items.
"""
import os
import sys


def deep(count):
    """A stack of 300 times as many frames."""
    return ["a" + ";a" * (300 * count - 1) + " 1"]


def wide(count):
    """As many stacks of one frame, each with a name of its own."""
    return [f"main;f{at} 1" for at in range(count)]


def stairs(count):
    """As many stacks, each a frame deeper than the one before, up to 128."""
    return [";".join(f"f{depth}" for depth in range(1 + at % 128)) + f";g{at} 1" for at in range(count)]


def long_names(count):
    """A stack for each 100, of one frame whose name has a letter for each."""
    return [f"{at}" + "x" * count + " 1" for at in range(count // 100)]


KINDS = {function.__name__.replace("_", "-"): function for function in (deep, wide, stairs, long_names)}

if __name__ == "__main__":
    if len(sys.argv) != 4 or sys.argv[1] not in KINDS:
        sys.exit(__doc__ + "\nKinds: " + ", ".join(KINDS))
    with open(os.path.join(sys.argv[3], "folded"), "w") as file:
        file.writelines(line + "\n" for line in KINDS[sys.argv[1]](int(sys.argv[2])))
