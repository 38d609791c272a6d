#!/usr/bin/env python3
"""try_folded.py PROGRAM [KIND..]: runs framehop-stacks on folded stacks of 4,000, 8,000 and 16,000 items of each kind of folded.py, for a
flame graph, for speedscope, and to fold them once more, as runner.py says.
"""
import os
import sys
from pathlib import Path

from folded import KINDS
from runner import try_kinds


def main():
    program, kinds = sys.argv[1], sys.argv[2:] or list(KINDS)
    commands_for = lambda kind, folder: {
        option or "folded": [program, *([option] if option else []), os.path.join(folder, "folded")]
        for option in ("", "--svg", "--speedscope")
    }
    try_kinds(Path(__file__).with_name("folded.py"), kinds, (4000, 8000, 16000), commands_for)


main()
