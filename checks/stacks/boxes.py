#!/usr/bin/env python3
"""Compares the boxes of a flame graph with the folded stacks that it was drawn of: boxes.py FOLDED [TITLE] [flame] <SVG

Each list of frames with which a stack begins has one box, which tells its last frame, the sum of the counts of its stacks and its
part of all, rounded to a hundredth of a per cent; a box is as wide as that part of 1,200 pixels, but for less than two hundredths of
a pixel, and in a row below that of its callers, or above it with `flame`. The document's first element is its title. Status 0 where all
are so. It is for stacks of which no box is left out.
"""
import collections
import re
import sys
import xml.etree.ElementTree

SPACE = "{http://www.w3.org/2000/svg}"


def counted(lines):
    """How often each list of frames begins a stack of folded stacks."""
    counts = collections.Counter()
    for line in lines:
        stack, _, count = line.rstrip("\n").rpartition(" ")
        frames = stack.split(";")
        for length in range(len(frames) + 1):
            counts[tuple(frames[:length])] += int(count)
    return counts


def boxes_of(counts, is_flame):
    """The boxes that a picture must have: the name, count and row of each."""
    rows = max(map(len, counts))
    wanted = collections.Counter()
    for frames, count in counts.items():
        row = rows - len(frames) if is_flame else len(frames)
        wanted[(frames[-1] if frames else "all", count, row)] += 1
    return wanted


def is_picture_of(svg, lines, title="Flame Graph", is_flame=False):
    """Whether a picture, as a file, has the boxes of folded stacks."""
    counts = counted(lines)
    total = counts[()]
    drawn, failed = collections.Counter(), False
    root = xml.etree.ElementTree.parse(svg).getroot()
    failed |= root[0].tag != SPACE + "title" or root[0].text != title
    for group in root.iter(SPACE + "g"):
        told = re.fullmatch(r"(.*) \((1 sample|\d+ samples), ([0-9.]+)%\)", group.find(SPACE + "title").text, re.S)
        name, count, part = told[1], int(told[2].split()[0]), float(told[3])
        rectangle = group.find(SPACE + "rect")
        drawn[(name, count, (int(rectangle.get("y")) - 56) / 16)] += 1
        failed |= abs(float(rectangle.get("width")) - 1200 * count / total) > 0.02 or abs(part - 100 * count / total) > 0.005001
        failed |= (count == 1) != (told[2] == "1 sample")
    return not failed and drawn == boxes_of(counts, is_flame)


def main():
    arguments = sys.argv[1:]
    is_flame = arguments[-1] == "flame"
    folded, title = (arguments[: len(arguments) - is_flame] + ["Flame Graph"])[:2]
    with open(folded, encoding="utf-8") as lines:
        sys.exit(0 if is_picture_of(sys.stdin, lines, title, is_flame) else 1)


if __name__ == "__main__":
    main()
