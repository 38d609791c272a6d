#!/usr/bin/env python3
"""try_commands.py PROGRAM [KIND..]: runs framehop-walk on 4,000, 8,000 and 16,000 commands of each kind of commands.py, as runner.py
says.
"""
import os
import sys
from pathlib import Path

from commands import KINDS
from runner import try_kinds


def main():
    program, kinds = sys.argv[1], sys.argv[2:] or list(KINDS)
    commands_for = lambda kind, folder: {"walk": [program, os.path.join(folder, "commands.json")]}
    try_kinds(Path(__file__).with_name("commands.py"), kinds, (4000, 8000, 16000), commands_for)


main()
