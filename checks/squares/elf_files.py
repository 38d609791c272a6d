"""elf_files.py KIND ITEMS FOLDER: an ELF file of x86_64 with many items of one kind, each made to cost a square where a program is careless.

Each function of KINDS returns the code, the call frame section and the symbols of a number of items.
"""
import os
import struct
import sys

CODE, FRAMES = 0x1000, 0x10000000
MOVE, RET = b"\x89\xc0", b"\xc3"
REMEMBER, RESTORE = b"\x0a", b"\x0b"


def entry(body):
    """An entry of `.eh_frame`, with its length."""
    body += bytes(-len(body) % 8)
    return struct.pack("<I", len(body)) + body


def cie(instructions=b"", letters=b""):
    """CFA = rsp + 8, and the return address below it."""
    data = b"\0" if letters else b""
    return entry(bytes(4) + b"\1" + letters + bytes([0, 1, 0x78, 16]) + data + bytes([0x0C, 7, 8, 0x90, 1]) + instructions)


def fde(at, start, size, instructions=b""):
    """An FDE at an offset of the section, for the CIE at its front."""
    return entry(struct.pack("<IQQ", at + 4, start, size) + instructions)


def in_turn(count, one, letters=b""):
    """Functions whose FDEs lead to two CIEs in turn."""
    section = one + one
    data = b"\0" if letters else b""
    parts = [section]
    at = len(section)
    for index in range(count):
        cie_at = index % 2 * len(one)
        part = entry(struct.pack("<IQQ", at + 4 - cie_at, CODE + 3 * index, 3) + data)
        parts.append(part)
        at += len(part)
    return (MOVE + RET) * count, b"".join(parts), []


def frames(functions, instructions=b""):
    """A section of FDEs: (start, size, instructions)."""
    section = cie(instructions)
    parts = [section]
    at = len(section)
    for start, size, rows in functions:
        part = fde(at, start, size, rows)
        parts.append(part)
        at += len(part)
    return b"".join(parts)


def functions(count):
    """Functions of two instructions."""
    return (MOVE + RET) * count, frames([(CODE + 3 * at, 3, b"") for at in range(count)]), []


def rows(count):
    """A function with a row for each instruction."""
    return MOVE * count + RET, frames([(CODE, 2 * count + 1, b"\x42\x0e\x08" * count)]), []


def jumps(count):
    """A function of jumps to its last instruction, with a row for each."""
    code = b"".join(b"\x0f\x84" + struct.pack("<i", 6 * (count - at - 1)) for at in range(count)) + RET
    return code, frames([(CODE, len(code), b"\x46\x0e\x08" * count)]), []


def back_jumps(count):
    """A function of jumps to its first instruction, with a row for each."""
    code = b"".join(b"\x0f\x84" + struct.pack("<i", -6 * (at + 1)) for at in range(count)) + RET
    return code, frames([(CODE, len(code), b"\x46\x0e\x08" * count)]), []


def alarms(count):
    """A function in which each row is wrong: it says that something was pushed or popped. Its name has as many bytes."""
    rows_of = b"\x42\x0e\x10\x42\x0e\x08" * count
    return MOVE * (2 * count) + RET, frames([(CODE, 4 * count + 1, rows_of)]), [(CODE, "f" * count)]


def symbols(count):
    """Functions, and as many names for the first."""
    code, section, _ = functions(count)
    return code, section, [(CODE, f"f{at}") for at in range(count)]


def shared_cie(count):
    """Functions whose CIE has as many instructions."""
    return (MOVE + RET) * count, frames([(CODE + 3 * at, 3, b"") for at in range(count)], bytes(count)), []


def cies_in_turn(count):
    """Functions of two CIEs in turn, each of as many instructions."""
    return in_turn(count, cie(bytes(count)))


def letters_in_turn(count):
    """Functions of two CIEs in turn, each with an augmentation text of as many letters."""
    letters = b"z" + b"S" * count
    return in_turn(count, cie(letters=letters), letters)


def remembered(count):
    """A function whose rows remember and restore one another."""
    rows_of = (REMEMBER + b"\x42\x0e\x08") * count + RESTORE * count
    return MOVE * count + RET, frames([(CODE, 2 * count + 1, rows_of)]), []


def overlapping(count):
    """As many FDEs as instructions, each from an instruction to the last."""
    return MOVE * count + RET, frames([(CODE + 2 * at, 2 * (count - at) + 1, b"") for at in range(count)]), []


KINDS = {function.__name__.replace("_", "-"): function for function in (
    functions, rows, jumps, back_jumps, alarms, symbols, shared_cie, cies_in_turn, letters_in_turn, remembered,
    overlapping)}


def elf(code, section, names):
    """A file with these as `.text`, `.eh_frame` and `.symtab`."""
    strings, table = b"\0", bytes(24)
    for address, name in names:
        table += struct.pack("<IBBHQQ", len(strings), 0x12, 0, 1, address, 2)
        strings += name.encode() + b"\0"
    labels = b"\0.text\0.eh_frame\0.symtab\0.strtab\0.shstrtab\0"
    parts = [(".text", 1, 6, CODE, code), (".eh_frame", 1, 2, FRAMES, section), (".symtab", 2, 0, 0, table), (".strtab", 3, 0, 0, strings),
             (".shstrtab", 3, 0, 0, labels)]
    body, rows_of = b"", [bytes(64)]
    for label, kind, flags, address, contents in parts:
        name = labels.index(label.encode() + b"\0")
        link = 4 if kind == 2 else 0
        rows_of.append(struct.pack("<IIQQQQIIQQ", name, kind, flags, address, 64 + len(body), len(contents), link, 1, 1, 24 if kind == 2 else 0))
        body += contents
    head = b"\x7fELF\2\1\1" + bytes(9) + struct.pack("<HHIQQQIHHHHHH", 3, 62, 1, 0, 0, 64 + len(body), 0, 64, 0, 0, 64, len(rows_of), 5)
    return head + body + b"".join(rows_of)


if __name__ == "__main__":
    if len(sys.argv) != 4 or sys.argv[1] not in KINDS:
        sys.exit(__doc__ + "\nKinds: " + ", ".join(KINDS))
    with open(os.path.join(sys.argv[3], "code.so"), "wb") as file:
        file.write(elf(*KINDS[sys.argv[1]](int(sys.argv[2]))))
