#!/usr/bin/env python3
"""try_recordings.py PROGRAM [KIND..]: runs framehop-stacks on recordings of 4,000, 8,000 and 16,000 items of each kind of recordings.py,
as runner.py says. Of a kind in SQUARES growth is only printed: each mapping moves those after it.
"""
import os
import sys
from pathlib import Path

from recordings import KINDS
from runner import try_kinds

SQUARES = ("maps-down-sampled",)


def main():
    program, kinds = sys.argv[1], sys.argv[2:] or list(KINDS)

    def commands_for(kind, folder):
        root, maps = os.path.join(folder, "root"), os.path.join(folder, "maps")
        command = [program, "--root", root if os.path.isdir(root) else "/nonexistent"]
        if os.path.isdir(maps):
            command += ["--perf-map", maps]
        return {"folded": [*command, os.path.join(folder, "recording")]}

    try_kinds(Path(__file__).with_name("recordings.py"), kinds, (4000, 8000, 16000), commands_for, excepted=SQUARES)


main()
