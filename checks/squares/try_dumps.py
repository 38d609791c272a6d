#!/usr/bin/env python3
"""try_dumps.py PROGRAM [KIND..]: runs framehop-stacks on dumps of 4,000, 8,000 and 16,000 items of each kind of dumps.py, as runner.py
says. `--json` reads all mapped files.
"""
import os
import sys
from pathlib import Path

from dumps import KINDS
from runner import try_kinds


def main():
    program, kinds = sys.argv[1], sys.argv[2:] or list(KINDS)

    def commands_for(kind, folder):
        dump, root = os.path.join(folder, "dump"), os.path.join(folder, "root")
        command = [program, "--root", root if os.path.isdir(root) else folder]
        return {"blocks": [*command, dump], "--json": [*command, "--json", dump]}

    try_kinds(Path(__file__).with_name("dumps.py"), kinds, (4000, 8000, 16000), commands_for, statuses=(0, 1))


main()
