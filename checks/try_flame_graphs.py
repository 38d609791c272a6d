#!/usr/bin/env python3
"""Folded stacks and flame graphs by built programs: try_flame_graphs.py PROGRAM.. (framehop-stacks).

Each row is a text of folded stacks, the arguments, and lines that are to be printed. Places and widths of boxes are reckoned by
hand (1,200 pixels for all samples), and colours by the FNV-1a of a frame's name (draft-eastlake-fnv). The status is 1 where a row
is not as it is to be.
"""

import subprocess
import sys
import tempfile
from pathlib import Path

MOST = 2**64 - 1
HEAD = """<?xml version="1.0" encoding="UTF-8"?>
<svg xmlns="http://www.w3.org/2000/svg" width="1220" height="{0}" viewBox="-10 0 1220 {0}" font-family="monospace" font-size="12">
<title>{1}</title>
<rect x="-10" y="0" width="1220" height="{0}" fill="#ffffff"/>
<text x="600" y="24" font-size="17" text-anchor="middle">{1}</text>
"""
LEFT_OUT = '<text x="0" y="44">Boxes narrower than a tenth of a pixel or beyond 4096 frames, left out: {}</text>'
TOO_LARGE, NOTHING = "the counts add up to 2^64 or more", "nothing was counted"


def box(title, x, width, y, colour, label):
    """The line of a box: its colour is red, green and blue, and its label lies 3 pixels to the right of its edge and 12 below."""
    text = f'<text x="{float(x) + 3:.2f}" y="{y + 12}">{label}</text>' if label else ""
    return f'<g><title>{title}</title><rect x="{x}" width="{width}" y="{y}" height="15" fill="rgb({colour})"/>{text}</g>'


def samples(count, part):
    return f"{count} sample{'s' * (count != 1)}, {part}%"


def begun(name, part, x, width, more="y="):
    """The beginning of the line of a box."""
    return f'<g><title>{name} ({part})</title><rect x="{x}" width="{width}" {more}...'


# ---- pictures: the text, the arguments, and the lines that are to be there (whole, or with ... at their beginning or end)

# a sample of ten is 120 pixels wide; `main;a` comes before `main;a;b`, and so 3 samples are to the left of `b`
THREE = [
    box(f"all ({samples(10, '100.00')})", "0.00", "1200.00", 56, "237,106,38", "all"),
    box(f"main ({samples(10, '100.00')})", "0.00", "1200.00", 72, "247,101,15", "main"),
    box(f"a ({samples(5, '50.00')})", "0.00", "600.00", 88, "225,174,8", "a"),
    box(f"b ({samples(2, '20.00')})", "360.00", "240.00", 104, "232,181,9", "b"),
    box(f"c ({samples(5, '50.00')})", "600.00", "600.00", 88, "213,179,27", "c"),
]
# the outermost frame at the bottom
TWO = [
    box(f"all ({samples(10, '100.00')})", "0.00", "1200.00", 88, "237,106,38", "all"),
    box(f"main ({samples(10, '100.00')})", "0.00", "1200.00", 72, "247,101,15", "main"),
    box(f"a ({samples(5, '50.00')})", "0.00", "600.00", 56, "225,174,8", "a"),
    box(f"c ({samples(5, '50.00')})", "600.00", "600.00", 56, "213,179,27", "c"),
]
# seven samples over 1,200 pixels: the edges are rounded down, and the widths add up to 1,200
EDGES = [("a", "0.00", "171.42"), ("b", "171.42", "171.43"), ("c", "342.85", "171.43"), ("d", "514.28", "171.43")]
EDGES += [("e", "685.71", "171.43"), ("f", "857.14", "171.43"), ("g", "1028.57", "171.43")]
# the FNV-1a of `foobar` at 32 bits is bf9cf968
FOOBAR = f"{205 + 0xBF9CF968 % 50},{80 + 0xBF9CF968 // 50 % 150},{0xBF9CF968 // 7500 % 55}"
NAME = r"a&amp;b&lt;c&gt;&quot;d\x09\xff\xef\xbf\xbe"

# `a` was counted 3 times of 5 and then 5 times of 6: its part grew by 0.28 of the larger, which is 39 of 140 shades
OLD, NEW = "main;a 3\nmain;old 2\n", "main;a 5\nmain;b 1\n"
GREW = [
    box(f"all ({samples(6, '100.00')}; before {samples(5, '100.00')})", "0.00", "1200.00", 56, "230,230,230", "all"),
    box(f"a ({samples(5, '83.33')}; before {samples(3, '60.00')})", "0.00", "1000.00", 88, "230,191,191", "a"),
    box(f"b ({samples(1, '16.67')}; before {samples(0, '0.00')})", "1000.00", "200.00", 88, "230,90,90", "b"),
    # the box of `old` has no width
    LEFT_OUT.format(1),
]
SHRANK = [
    box(f"a ({samples(3, '60.00')}; before {samples(5, '83.33')})", "0.00", "720.00", 88, "191,191,230", "a"),
    box(f"old ({samples(2, '40.00')}; before {samples(0, '0.00')})", "720.00", "480.00", 88, "230,90,90", "old"),
]

PICTURES = [
    ("edges, not widths, are rounded", "".join(f"{it} 1\n" for it in "abcdefg"), [begun(it, samples(1, "14.29"), x, width) for it, x, width in EDGES]),
    # 0.125 up, 0.0625 down, and 99.8125 down
    (
        "parts are rounded to the nearest",
        "a 1\nb 2\nc 1597\n",
        ["<g><title>a (1 sample, 0.06%)</title>...", "<g><title>b (2 samples, 0.13%)</title>...", "<g><title>c (1597 samples, 99.81%)</title>..."],
    ),
    # by the bytes of the lines, `a-b;x` would lie between `a` and `a;x`, and the box of `a` would be in two parts
    (
        "frames come one after another by their bytes",
        "a 1\na-b;x 2\na;x 1\n",
        [
            begun("a", samples(2, "50.00"), "0.00", "600.00", 'y="72"'),
            begun("x", samples(1, "25.00"), "300.00", "300.00", 'y="88"'),
            begun("a-b", samples(2, "50.00"), "600.00", "600.00", 'y="72"'),
            begun("x", samples(2, "50.00"), "600.00", "600.00", 'y="88"'),
        ],
    ),
    # one of 12,000 samples is 0.1 pixels wide, and one of 12,001 less; rows of boxes that are left out take no room
    ("a box of a tenth of a pixel is drawn", "a;b 1\nz 11999\n", 4),
    ("narrower boxes are left out", "a;b 1\nz 12000\n", 2),
    (
        "narrower boxes are told",
        "a;b 1\nz 12000\n",
        [LEFT_OUT.format(2), '...height="98" viewBox="-10 0 1220 98"...', begun("z", samples(12000, "99.99"), "0.09", "1199.91", 'y="72"')],
    ),
    # 16 pixels for each row, and 66 or, where boxes are left out, 82 beside them
    ("4,096 frames are drawn", "f;" * 4095 + "f 1\n", 4097),
    ("deeper frames are left out", "f;" * 4999 + "f 1\n", [LEFT_OUT.format(904), '...height="65618"...']),
    (
        "a stack of 500 frames",
        "frame;" * 499 + "last 3\n",
        [
            '<rect x="-10" y="0" width="1220" height="8082" ...',
            begun("last", samples(3, "100.00"), "0.00", "1200.00", 'y="8056"'),
            begun("all", samples(3, "100.00"), "0.00", "1200.00", 'y="56"'),
        ],
    ),
    # the root, `main`, 100 of each of the next eight frames, and 10,000 of 0.12 pixels
    ("ten thousand stacks", "".join(f"main;outer{at // 100};a;b;c;d;e;f;g;inner{at % 100} 1\n" for at in range(10000)), 10802),
    ("the largest total", f"a {MOST - 1}\nb 1\n", [begun("all", samples(MOST, "100.00"), "0.00", "1200.00")]),
    # what XML asks for; a tab, a byte that is no UTF-8, and U+FFFE, by their bytes
    ("names are escaped", b'a&b<c>"d\t\xff\xef\xbf\xbe 1\n', [begun(NAME, samples(1, "100.00"), "0.00", "1200.00", 'y="72"'), f"...>{NAME}</text></g>"]),
    # one of 28 samples is 42.85 pixels wide: five characters of 7.25 fit beside 6 free pixels, and not six
    ("a name that fits", "abcde 1\nz 27\n", ['...y="84">abcde</text></g>']),
    ("a name that is cut", "abcdef 1\nz 27\n", ['...y="84">abc..</text></g>']),
    ("characters of two bytes fit", "äöüßé 1\nz 27\n", ['...y="84">äöüßé</text></g>']),
    ("characters of two bytes are cut", "äöüßéè 1\nz 27\n", ['...y="84">äöü..</text></g>']),
    ("an escaped character is one", "a&<>cde 1\nz 27\n", ['...y="84">a&amp;&lt;..</text></g>']),
    # of 43 samples one is 27.90 pixels wide, where three characters fit, and of 44 it is 27.27, where two do
    ("three characters", "abcdef 1\nz 42\n", ['...y="84">a..</text></g>']),
    ("no room for a name", "ab 1\nz 43\n", [begun("ab", samples(1, "2.27"), "0.00", "27.27", 'y="72"'), '...)"/></g>']),
    ("a colour by the name", "foobar 1\n", [begun("foobar", samples(1, "100.00"), "0.00", "1200.00", f'y="72" height="15" fill="rgb({FOOBAR})"/>')]),
]
# a title, the end of its heading, which has 115 characters of 10.2 pixels
TITLES = [("title" * 23, "...titletitle</text>"), ("title" * 23 + "!", "...titletit..</text>")]

# ---- folded stacks: the texts of the files, and what is printed of them

SUMS = [
    (["main;b 2\nmain;a 3\n", "main;b 40\nmain 1\nmain;b 500\n"], "main 1\nmain;a 3\nmain;b 542\n"),
    # a stack that was counted 0 times has a line
    ([f"b {MOST - 1}\nd 0\n", "a 0\nb 1\n"], f"a 0\nb {MOST}\nd 0\n"),
    ([f"\na;b 2\n\nname with blanks; x 007\n {MOST}"], f" {MOST}\na;b 2\nname with blanks; x 7\n"),
]
NO_COUNT, NO_NUMBER = "it has no blank before a count", "after its last blank there is no decimal count below 2^64"
# what is no text, by the first 4,096 bytes: it is read as another file
OTHERS = [("a\x1b[0m 1\n", "not a recording of perf: offset 0"), ("a\0", "the file ends before what is to be read at offset 0")]
# a text, and the number of the line that is refused, with the reason
REFUSED = [
    ("a", 1, NO_COUNT),
    ("a 1\nb\nc", 2, NO_COUNT),
    ("\n\na;b", 3, NO_COUNT),
    ("a ", 1, NO_NUMBER),
    ("a x", 1, NO_NUMBER),
    ("a +1", 1, NO_NUMBER),
    ("a 1.5", 1, NO_NUMBER),
    ("a 1\r\n", 1, NO_NUMBER),
    (f"a 1\na {MOST + 1}", 2, NO_NUMBER),
    ("a 99999999999999999999999", 1, NO_NUMBER),
    ("a" * 4096 + "\0", 1, NO_COUNT),
]


# ---- the runs


class Runner:
    def __init__(self, program, room):
        self.program, self.room, self.failed = program, room, 0

    def run(self, *words):
        ran = subprocess.run([self.program, *words], cwd=self.room, stdin=subprocess.DEVNULL, stdout=subprocess.PIPE, stderr=subprocess.PIPE)
        return ran.returncode, ran.stdout.decode(), ran.stderr.decode()

    def file(self, name, text):
        (self.room / name).write_bytes(text if isinstance(text, bytes) else text.encode())
        return name

    def is_so(self, what, is_held, found):
        if not is_held:
            self.failed += 1
            print(f"{self.program}: {what}: {found}"[:2000], file=sys.stderr)

    def draws(self, what, wanted, *words):
        """Whether a picture has so many boxes, or these lines."""
        status, svg, said = self.run("--svg", *words)
        lines = svg.splitlines()
        if isinstance(wanted, int):
            self.is_so(what, status == 0 and sum(it.startswith("<g>") for it in lines) == wanted, said or "another number of boxes")
        else:
            missing = [it for it in wanted if not any(is_line(it, line) for line in lines)]
            self.is_so(what, status == 0 and not missing, f"{said}not there: {missing}")

    def is_picture(self, what, boxes, height, title, *words):
        """Whether a picture has these boxes and no other element, but for the script, which is last."""
        status, svg, said = self.run("--svg", *words)
        drawn, _, script = svg.partition("<script><![CDATA[")
        is_whole = script.count("]]>") == 1 and script.endswith("]]></script>\n</svg>\n")
        self.is_so(what, status == 0 and is_whole and drawn == HEAD.format(height, title) + "".join(f"{it}\n" for it in boxes), said + drawn)

    def refuses(self, what, reason, *words):
        status, out, said = self.run(*words)
        self.is_so(what, status == 1 and not out and said == f"framehop-stacks: {reason}\n", f"{status} {out} {said}")


def is_line(wanted, line):
    """Whether a line is as it is wanted: whole, or but for what `...` stands for at its ends."""
    text = wanted.removeprefix("...").removesuffix("...")
    if wanted.startswith("...") and wanted.endswith("..."):
        return text in line
    return line.endswith(text) if wanted.startswith("...") else line.startswith(text) if wanted.endswith("...") else line == wanted


def try_pictures(runner):
    for number, text in enumerate(["main;a;b 2\nmain;a 3\nmain;c 5\n", "main;c 1\nmain;a 3\nmain;c 4\nmain;a;b 2\n"]):
        runner.is_picture(f"three stacks, {number}", THREE, 130, "Flame Graph", runner.file("three", text))
    runner.is_picture("two stacks", TWO, 114, "a &lt; b", "--flame", "--title", "a < b", runner.file("two", "main;a 5\nmain;c 5\n"))
    for what, text, wanted in PICTURES:
        runner.draws(what, wanted, runner.file("drawn", text))
    for title, end in TITLES:
        runner.draws("the end of a heading", [f"<title>{title}</title>", end], "--title", title, runner.file("drawn", "a 1\n"))
    for text, reason in (("a 0\nb;c 0\n", NOTHING), (f"a {MOST}\nb 1\n", TOO_LARGE)):
        runner.refuses("a total", reason, "--svg", runner.file("drawn", text))


def try_changes(runner):
    old, new = runner.file("old", OLD), runner.file("new", NEW)
    status, out, said = runner.run("--diff", old, new)
    runner.is_so("two counts", (status, out) == (0, "main;a 3 5\nmain;b 0 1\nmain;old 2 0\n"), out + said)
    runner.draws("what grew", GREW, "--diff", old, new)
    runner.draws("what shrank", SHRANK, "--diff", new, old)
    large, none = runner.file("large", f"a {MOST}\nb 1\n"), runner.file("none", "c 0\n")
    for first, second, reason in ((large, new, TOO_LARGE), (old, large, TOO_LARGE), (none, new, NOTHING), (old, none, NOTHING)):
        runner.refuses("a total of either", reason, "--svg", "--diff", first, second)


def try_texts(runner):
    for texts, wanted in SUMS:
        status, out, said = runner.run(*(runner.file(f"added{number}", text) for number, text in enumerate(texts)))
        runner.is_so("sums", (status, out) == (0, wanted), out + said)
    for text, reason in OTHERS:
        runner.refuses(f"{text!r}", f"refused: {reason}", runner.file("refused", text))
    for text, line, reason in REFUSED:
        runner.refuses(f"{text!r}", f"refused: line {line} is no folded stack: {reason}", runner.file("refused", text))


def main():
    with tempfile.TemporaryDirectory(prefix="flame-") as room:
        runners = [Runner(str(Path(it).resolve()), Path(room)) for it in sys.argv[1:]]
        if not runners:
            sys.exit(__doc__)
        for runner in runners:
            try_pictures(runner)
            try_changes(runner)
            try_texts(runner)
    if any(it.failed for it in runners):
        sys.exit(1)
    print(f"folded stacks and flame graphs are as they should be: {len(PICTURES) + len(SUMS) + len(OTHERS) + len(REFUSED)} texts")


if __name__ == "__main__":
    main()
