#!/usr/bin/env python3
"""try_elf_files.py PROGRAM [KIND..]: runs framehop-check, also with --missing, or framehop-explain --elf on ELF files with 16,000, 32,000
and 64,000 items of each kind of elf_files.py, as runner.py says.
"""
import os
import sys
from pathlib import Path

from elf_files import KINDS
from runner import try_kinds


def main():
    program, kinds = sys.argv[1], sys.argv[2:] or list(KINDS)
    options = ("--quiet", "--missing") if "check" in os.path.basename(program) else ("--elf",)
    commands_for = lambda kind, folder: {option: [program, option, os.path.join(folder, "code.so")] for option in options}
    try_kinds(Path(__file__).with_name("elf_files.py"), kinds, (16000, 32000, 64000), commands_for, statuses=(0, 1))


main()
