"""Lines of the source and inlined functions of addresses in ELF files, by llvm-symbolizer or else addr2line.

Which file was mapped, the program says: its JSON has the path at which each file was read, and that of its debug file. Only one that has
debug information is handed to a symbolizer.
"""

import mmap
import os
import re
import shutil
import struct
import subprocess

SHT_NOBITS = 8


class ElfFile:
    """An ELF file of 64 bits, and what its sections tell. Raises an exception of `read_elf` of another file.

    has_lines       whether it has debug information
    has_supplement  whether a part of that is in a file that several share, as dwz makes it
    """

    def __init__(self, path):
        with open(path, "rb") as file:
            data = mmap.mmap(file.fileno(), 0, access=mmap.ACCESS_READ)
        if data[:6] != b"\x7fELF\x02\x01":
            raise ValueError("no ELF file of 64 bits")
        (start,) = struct.unpack_from("<Q", data, 0x28)
        size, count, names_at = struct.unpack_from("<HHH", data, 0x3A)
        sections = [struct.unpack_from("<IIQQQQ", data, start + size * at) for at in range(count)]
        texts = sections[names_at][4]
        # (of a section without bytes of its own the file has none)
        names = {data[texts + name : data.find(b"\0", texts + name)] for name, kind, *_, bytes_ in sections if bytes_ and kind != SHT_NOBITS}
        self.has_lines = bool(names & {b".debug_info", b".zdebug_info"})
        self.has_supplement = b".gnu_debugaltlink" in names


def read_elf(path):
    """An ELF file, or None where there is none that can be read."""
    try:
        return ElfFile(path)
    except (OSError, ValueError, IndexError, OverflowError, struct.error):
        return None


# What a symbolizer says of an address: its functions, the innermost first, each as (name or None, file or None, line).


def llvm_lines(path, addresses):
    """What llvm-symbolizer says of addresses of a file: a list for each."""
    said = run(["llvm-symbolizer", f"--obj={path}"], addresses).split("\n\n")
    for answer in said[: len(addresses)]:
        lines = answer.split("\n")
        yield [told(name, place.rsplit(":", 2)[:2]) for name, place in zip(lines[::2], lines[1::2])]


def binutils_lines(path, addresses):
    """What addr2line says of addresses of a file: a list for each."""
    said = run(["addr2line", "-a", "-f", "-i", "-C", "-e", path], addresses)
    for answer in re.split(r"^0x[0-9a-f]+\n", said, flags=re.M)[1:]:
        lines = answer.split("\n")
        yield [told(name, place.split(" (")[0].rsplit(":", 1)) for name, place in zip(lines[::2], lines[1::2])]


def told(name, place):
    """A function of a symbolizer: nothing in the place of question marks, and no hash after a name of Rust."""
    file, line = (place + ["0"])[:2]
    known = file not in ("", "??")
    return re.sub(r"::h[0-9a-f]{16}$", "", name) if name != "??" else None, file if known else None, int(line) if line.isdigit() else 0


def run(command, addresses):
    """What a symbolizer writes of addresses. It asks no server."""
    asked = "".join(f"{address:#x}\n" for address in addresses)
    done = subprocess.run(
        command,
        input=asked.encode(),
        stdout=subprocess.PIPE,
        stderr=subprocess.DEVNULL,
        env={**os.environ, "DEBUGINFOD_URLS": ""},
    )
    return done.stdout.decode("utf-8", "surrogateescape")


def symbolizers():
    """The symbolizers that are there, the better one first."""
    found = (("llvm-symbolizer", llvm_lines), ("addr2line", binutils_lines))
    return [lines for name, lines in found if shutil.which(name)]


class Lines:
    """What symbolizers say of addresses in files."""

    def __init__(self):
        self.files = {}
        self.said = {}

    def file_with_lines(self, paths):
        """The first of files that has debug information, or None: a mapped file and its debug file, each a path or None."""
        for path in filter(None, paths):
            if path not in self.files:
                self.files[path] = read_elf(path)
            if self.files[path] and self.files[path].has_lines:
                return path
        return None

    def learn(self, places):
        """Asks for the lines of places: the paths of a mapped file and of its debug file, and an address that they state."""
        by_file = {}
        for paths, address in places:
            path = self.file_with_lines(paths)
            if path and (path, address) not in self.said:
                by_file.setdefault(path, set()).add(address)
        for path, addresses in by_file.items():
            self._ask(path, sorted(addresses))

    def _ask(self, path, addresses):
        # (llvm-symbolizer reads no file that several share)
        found = symbolizers()
        lines = found[-1] if self.files[path].has_supplement else found[0]
        for address, functions in zip(addresses, lines(path, addresses)):
            self.said[path, address] = functions if any(file for _, file, _ in functions) else []

    def at(self, place):
        """The functions at a place, the innermost first: none where nothing is known."""
        paths, address = place
        return self.said.get((self.file_with_lines(paths), address), [])
