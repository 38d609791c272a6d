#!/usr/bin/env python3
"""Tests bindings/python/framehop.py: framehop_py.py, with the shared library in FRAMEHOP_SO. What needs a core file is in
walk_core.py."""

import gc
import random
import struct
import subprocess
import sys
import tempfile
import threading
import unittest
from pathlib import Path

TOP = Path(__file__).resolve().parent.parent.parent
sys.path[:0] = [str(TOP / "bindings/python"), str(TOP / "bindings/test")]
import framehop
import walk_core

DATA = TOP / "crates/framehop_stacks_cli/data"
TINY = DATA / "srv/tiny"
# the stack of the example of framehop's README, from address 0 on, and its registers
BASE = 0x1003FC000
WORDS = [1, 2, 3, 4, 0x40, BASE + 0x100DC4, 5, 6, 0x70, BASE + 0x12CA28, 7, 8, 9, 10, 0, 0]
STACK = struct.pack("<16Q", *WORDS)[16:]
REGISTERS = {"ip": BASE + 0x1292C0, "lr": BASE + 0xE4830, "sp": 0x10, "fp": 0x20}


def refused_on_another_thread(call):
    found = []

    def run():
        try:
            call()
        except RuntimeError as error:
            found.append(error)

    thread = threading.Thread(target=run)
    thread.start()
    thread.join()
    return bool(found)


class Walks(unittest.TestCase):
    def test_frame_pointers_of_both_architectures(self):
        expected = [REGISTERS["ip"], BASE + 0x100DC4, BASE + 0x12CA28]
        for may_allocate in (True, False):
            with framehop.Unwinder("aarch64", may_allocate) as unwinder:
                self.assertEqual(unwinder.walk(REGISTERS, STACK), (expected, "root"))
            with framehop.Unwinder("x86_64", may_allocate) as unwinder:
                registers = {"ip": REGISTERS["ip"], "sp": 0x10, "bp": 0x20}
                self.assertEqual(unwinder.walk(registers, STACK).frames, expected)
                self.assertEqual(unwinder.walk(registers, STACK, limit=2), (expected[:2], "limit"))
                self.assertEqual(unwinder.walk(registers, STACK[:16]), (expected[:1], "could-not-read-stack"))

    def test_pointers_with_an_authentication_code(self):
        words = [word | 0x5A << 56 if word > BASE else word for word in WORDS]
        with framehop.Unwinder("aarch64") as unwinder:
            walk = unwinder.walk({**REGISTERS, "lr_mask": 2**40 - 1}, struct.pack("<16Q", *words)[16:])
        self.assertEqual(walk.frames[1:], [BASE + 0x100DC4, BASE + 0x12CA28])


class Versions(unittest.TestCase):
    def test_the_library_has_the_version_of_the_module(self):
        self.assertEqual(framehop.library_version(), framehop.__version__)


class Refusals(unittest.TestCase):
    def test_an_unwinder_stays_on_its_thread(self):
        unwinder = framehop.Unwinder()
        for call in (lambda: unwinder.walk({"ip": 1, "sp": 0}, b""), lambda: unwinder.remove_module(0), unwinder.close):
            self.assertTrue(refused_on_another_thread(call))
        unwinder.close()

    def test_a_closed_unwinder(self):
        unwinder = framehop.Unwinder()
        unwinder.close()
        unwinder.close()
        for call in (lambda: unwinder.walk({"ip": 1, "sp": 0}, b""), lambda: unwinder.add_module(TINY, 0x401000, 0x1000)):
            self.assertRaises(ValueError, call)

    def test_registers_that_there_are_not(self):
        with framehop.Unwinder() as unwinder:
            self.assertRaises(ValueError, unwinder.walk, {"ip": 1, "sp": 0, "lr": 0}, b"")

    def test_other_files(self):
        with framehop.Unwinder("aarch64") as unwinder:
            self.assertRaises(ValueError, unwinder.add_module, TINY, 0x401000, 0x1000)
        with framehop.Unwinder() as unwinder:
            self.assertRaises(ValueError, unwinder.add_module, b"#!/bin/sh\n", 0)
            self.assertRaises(ValueError, unwinder.add_module, TINY, 0x401000, 1 << 40)
            self.assertRaises(OSError, unwinder.add_module, "/nowhere", 0)


class Files(unittest.TestCase):
    def test_the_code_of_a_module(self):
        with framehop.Unwinder() as unwinder:
            shown = subprocess.run(["readelf", "-lW", TINY], capture_output=True, text=True, check=True).stdout
            lines = [line.split() for line in shown.splitlines() if " R E " in line]
            offset, svma, size = (int(lines[0][at], 16) for at in (1, 2, 5))
            start = 0x7F0000000000 + offset
            self.assertEqual(unwinder.add_module(TINY, start, offset), (start, start + size))
            self.assertEqual(framehop.ElfFile(TINY.read_bytes()).base(start, offset), start - svma)

    def test_a_compressed_section(self):
        with tempfile.TemporaryDirectory() as folder:
            plain, packed = f"{folder}/plain.so", f"{folder}/packed.so"
            options = "-xc - -g -O1 -fno-asynchronous-unwind-tables -shared -fPIC -nostdlib -o".split()
            source = "".join(f"int f{it}(int n) {{ volatile int a[9]; a[n] = n; return a[1]; }}\n" for it in range(50))
            subprocess.run(["clang", *options, plain], input=source, text=True, check=True)
            subprocess.run(["objcopy", "--compress-debug-sections=zlib", plain, packed], check=True)
            sections = [framehop.ElfFile(Path(it).read_bytes()).section(b".debug_frame") for it in (plain, packed)]
            self.assertEqual(sections[0][2], sections[1][2])
            self.assertGreater(len(sections[0][2]), 1000)

    def test_the_bytes_of_a_module_are_kept(self):
        core = framehop.ElfFile((DATA / "crash.core").read_bytes())
        with framehop.Unwinder() as unwinder:
            walk_core.add_modules(unwinder, core, str(DATA))
            # what can be freed is, and has other bytes now
            gc.collect()
            other = [bytes([255]) * size for size in range(1, 2000) for _ in range(20)]
            _, registers, stack = next(walk_core.threads(core))
            self.assertEqual(unwinder.walk(registers, stack).frames, [0x40104E, 0x40106A, 0x401110, 0x401060])
            del other

    def test_damaged_files(self):
        data, chance = TINY.read_bytes(), random.Random(7)
        tables = [*range(64), *range(64, 500), *range(len(data) - 2000, len(data))]
        for _ in range(1000):
            damaged = bytearray(data[: chance.choice([len(data), chance.randrange(len(data))])])
            for _ in range(chance.randrange(1, 6)):
                damaged[chance.choice(tables) % len(damaged)] = chance.choice([0, 1, 0x7F, 0x80, 0xFF])
            with framehop.Unwinder() as unwinder:
                try:
                    unwinder.add_module(damaged, 0x401000, 0x1000)
                except ValueError:
                    continue
                unwinder.walk({"ip": 0x401050, "sp": 0x1000, "bp": 0x1010}, struct.pack("<512Q", *range(512)), 100)


if __name__ == "__main__":
    unittest.main()
