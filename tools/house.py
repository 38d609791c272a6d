#!/usr/bin/env python3
"""Draws the crates of this repository in storeys, what stands on what, and how many lines each has, as docs/house.svg.

    house.py [FILE]

A line leads from a crate down to each crate of its line in crates.txt that it does not reach through another one: in its
storey, or in one below. Crates of tests are left out. The lines that are counted are those of src/ (code and contracts), of specs/ without its laws
(definitions), and of specs/Laws and proofs/ (proofs). Needs Graphviz's `dot`, which lays the picture out.
"""

import re
import subprocess
import sys
from pathlib import Path

TOP = Path(__file__).resolve().parent.parent
# the colours of libraries, and of programs
LIBRARY, PROGRAM = ("#dbe8f7", "#2b5d94"), ("#dff2df", "#2c7a39")
# the storeys, from the top, with the crates of each
STOREYS = {
    "Programs": "walk walk_cli explain_cli check_cli stacks_cli cli disk",
    "Stacks": "backtrace callers check dump_stacks dumps explain frames perf_stacks processes",
    "The library": "framehop lent c dwarf",
    "Formats": "cfi code dump_files folded macho object pe recording",
    "Bytes and registers": "analysis bytes cache core inflate memory output",
}
# on these nearly all stand: a line to them is drawn in their storey only
GROUND = {"framehop_bytes", "framehop_core"}
NOTE = "numbers are lines, to two digits; a crate stands on those below it, nearly each on framehop_bytes and framehop_core; crates of tests are left out"


def stands_on():
    """For each crate, but those of tests, the crates of this repository in its line of crates.txt."""
    lines = (line.partition(":") for line in (TOP / "crates.txt").read_text().splitlines() if ":" in line)
    named = {name.split()[0]: rest.split() for name, _, rest in lines if not name.startswith("#")}
    kept = {name for name in named if not name.endswith("_vectors")}
    return {name: kept.intersection(named[name]) for name in named if name in kept}


def reached(crate, below):
    """All crates that a crate stands on, at any number of steps."""
    return set().union(*({other} | reached(other, below) for other in below[crate]), set())


def direct(below):
    """The pairs of crates without those that another crate between them tells."""
    for crate, others in below.items():
        for other in sorted(others):
            if not any(other in reached(between, below) for between in others if between != other):
                yield crate, other


def drawn_lines(below):
    """The pairs of crates between which a line is drawn."""
    ground = storeys(below)["Bytes and registers"]
    return [(upper, lower) for upper, lower in direct(below) if lower not in GROUND or upper in ground]


def rounded(count):
    """A number of lines to two digits, so that not each change of a line is one of the picture."""
    unit = 10 ** max(0, len(str(count)) - 2)
    return (count + unit // 2) // unit * unit


def counts(crate):
    """The lines of a crate, by kind."""

    def lines(folder, suffix):
        files = (TOP / "crates" / crate / folder).rglob(f"*{suffix}")
        return sum(file.read_text().count("\n") for file in files)

    laws = lines("specs/Laws", ".antt") + sum(
        file.read_text().count("\n") for file in (TOP / "crates" / crate / "specs").glob("Laws.antt")
    )
    return {
        "code": lines("src", ".rt"),
        "definitions": lines("specs", ".antt") - laws,
        "proofs": lines("proofs", ".antt") + laws,
    }


def told(crate):
    """What a crate's box says of its lines."""
    return [f"{rounded(count):,} {kind}" for kind, count in counts(crate).items() if count]


def box(crate):
    is_program = (TOP / "crates" / crate / "src/main.rt").is_file()
    fill, stroke = PROGRAM if is_program else LIBRARY
    small = "".join(f'<br/><font point-size="10">{text}</font>' for text in told(crate))
    return f'{crate} [label=<<b>{crate}</b>{small}>, fillcolor="{fill}", color="{stroke}"]'


def storeys(below):
    """The crates of each storey, from the top. It fails where a crate has no storey, or stands on one above its own."""
    crate = lambda word: word if word == "framehop" else f"framehop_{word}"
    found = {name: [crate(word) for word in words.split()] for name, words in STOREYS.items()}
    height = {name: at for at, names in enumerate(found.values()) for name in names}
    if strangers := height.keys() ^ below.keys():
        sys.exit(f"house.py: STOREYS and crates.txt differ: {', '.join(sorted(strangers))}")
    if above := [f"{name} on {other}" for name in below for other in below[name] if height[other] < height[name]]:
        sys.exit(f"house.py: a crate stands on one of a storey above: {', '.join(sorted(above))}")
    return found


def storey(at, name, crates):
    """The box of a storey: each of its crates is below all of the storey above, by a point between them that is not drawn."""
    yield f'subgraph cluster_{at} {{ label=<<b>{name}</b>>; labeljust=l; style="rounded,filled"; color="#d0d0d0"; fillcolor="#fafafa"'
    yield from map(box, crates)
    yield "}"
    if at > 0:
        yield f"floor_{at} [style=invis, shape=point, width=0]"
        yield from (f"floor_{at} -> {crate} [style=invis]" for crate in crates)
    if at + 1 < len(STOREYS):
        yield from (f"{crate} -> floor_{at + 1} [style=invis]" for crate in crates)


def picture(below):
    return "\n".join(
        [
            "digraph {",
            f'graph [rankdir=TB, newrank=true, nodesep=0.2, ranksep=0.3, fontname="DejaVu Sans", fontsize=12, label="{NOTE}"]',
            'node [shape=box, style="rounded,filled", fontname="DejaVu Sans", fontsize=12, margin="0.12,0.06"]',
            'edge [arrowhead=none, color="#8a8a8a"]',
            *(line for at, (name, crates) in enumerate(storeys(below).items()) for line in storey(at, name, crates)),
            *(f"{upper} -> {lower}" for upper, lower in drawn_lines(below)),
            "}",
        ]
    )


def stale(svg):
    """The crates of which a picture has no box, or one that says something else; and those that are gone."""
    drawn = {
        name: re.findall(r"<text[^>]*>([^<]*)</text>", inside)[1:]
        for name, inside in re.findall(r'<g id="node\d+" class="node">\s*<title>(\w+)</title>(.*?)</g>', svg, re.S)
    }
    lines = {tuple(edge.split("&#45;&gt;")) for edge in re.findall(r"<title>(\w+&#45;&gt;\w+)</title>", svg) if "floor_" not in edge}
    below = stands_on()
    wanted = {crate: told(crate) for crate in below}
    yield from sorted(name for name in drawn.keys() | wanted.keys() if drawn.get(name) != wanted.get(name))
    yield from sorted(f"{upper} over {lower}" for upper, lower in lines ^ set(drawn_lines(below)))


def main():
    file = sys.argv[1] if len(sys.argv) > 1 else TOP / "docs/house.svg"
    subprocess.run(["dot", "-Tsvg", "-o", file], input=picture(stands_on()), text=True, check=True)


if __name__ == "__main__":
    main()
