#!/usr/bin/env python3
"""Lists the functions of crates that cost most to prove, after `rt check`, by the size of what it kept of each.

    costs.py [--most N] CRATE..

The time in which a function is proved goes with that size, which is the same on each machine: over the functions of a crate the
correlation of both was 0.77 to 0.96 in six crates, and 0.42 in a seventh.
"""

import argparse
import re
import sys
from collections import Counter
from pathlib import Path

TOP = Path(__file__).resolve().parent.parent
# the modules that are made of a function, after its path
PARTS = re.compile(r"\.(?:Code|Kinds|Layout|Lts|Met|Named|Proof|Goals|Answers|Invariants|Reads|Statement|Symbol|TheLink|Tie)\b.*")


def sizes(crate):
    """The bytes that were kept of each function of a crate."""
    kept = sorted((TOP / "crates" / crate / "out/incremental").glob("*/"), key=lambda it: it.stat().st_mtime)
    if not kept:
        sys.exit(f"costs.py: nothing is kept of {crate}: run rt check in its folder")
    found = Counter()
    for file in kept[-1].glob(f"Rattle-{crate}-proofs.*.oantt"):
        path = file.name.removeprefix(f"Rattle-{crate}-proofs.").removesuffix(".oantt")
        found[PARTS.sub("", path)] += file.stat().st_size
    return found


def main():
    given = argparse.ArgumentParser(description=__doc__, formatter_class=argparse.RawDescriptionHelpFormatter)
    given.add_argument("--most", type=int, default=20)
    given.add_argument("crates", nargs="+")
    given = given.parse_args()
    for crate in given.crates:
        found = sizes(crate)
        print(f"{crate}: {sum(found.values()) >> 20} MiB")
        for path, size in found.most_common(given.most):
            print(f"{size >> 10:8} KiB  {path.replace('.', '::')}")


if __name__ == "__main__":
    main()
