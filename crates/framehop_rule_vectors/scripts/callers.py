"""Prints what gdb takes for the caller's registers at places of libcrypto, ld.so and libc, in a process whose registers and
stack are set: gdb -q -batch -x callers.py /usr/bin/openssl

The places are those of OpenSSL 3.0.19 and glibc 2.36 of Debian 12. `readelf --debug-dump=frames` prints their rows.
"""
import struct

import gdb

COLUMNS = "rax rdx rcx rbx rsi rdi rbp rsp r8 r9 r10 r11 r12 r13 r14 r15 rip".split()


def places(start):
    """Files, addresses in them, and the registers by which their CFA is."""
    return [
        ("libcrypto", 0xD1597, {}),
        ("libcrypto", 0xD1568, {"rax": start + 0x78}),
        ("libcrypto", 0xD15E9, {"rsi": start + 0x78}),
        ("ld-linux", 0x25930, {"rbx": start + 8}),
        ("libc.so", 0x3C04F, {}),
    ]


def value(frame, name):
    found = frame.read_register(name)
    return None if found.is_optimized_out else int(found.cast(gdb.lookup_type("unsigned long")))


def bias_of(name):
    """Where the SVMA 0 of a file is."""
    with open(f"/proc/{gdb.selected_inferior().pid}/maps") as maps:
        fields = next(line.split() for line in maps if name in line)
    return int(fields[0].split("-")[0], 16) - int(fields[2], 16)


def show(name, frame):
    values = ((column, value(frame, column)) for column in COLUMNS)
    print(name, " ".join(f"{column}={'-' if it is None else hex(it)}" for column, it in values))


for setting in ("pagination off", "confirm off", "backtrace past-main on", "backtrace past-entry on", "breakpoint pending on"):
    gdb.execute(f"set {setting}")
gdb.execute("break OPENSSL_init_crypto")
gdb.execute("run version")
gdb.execute("delete")
safe = value(gdb.newest_frame(), "rip")
start = (value(gdb.newest_frame(), "rsp") - 0x8000) & ~0xFFF
words = [0x550000000000 + 0x101 * place for place in range(22)]
words[3] = start + 0x78
words[20] = start + 0x200
gdb.selected_inferior().write_memory(start, struct.pack("<22Q", *words))
print("words from", hex(start), "on:", " ".join(map(hex, words)))
for name, address, changed in places(start):
    registers = {column: 0x10000 + 0x111 * place for place, column in enumerate(COLUMNS)}
    registers |= {"rsp": start, "rip": bias_of(name) + address} | changed
    for column, word in [("rip", safe), ("rsp", start), *registers.items()]:
        gdb.newest_frame().select()
        gdb.execute(f"set ${column}={word}", to_string=True)
    gdb.execute("maintenance flush register-cache", to_string=True)
    print(name, hex(address))
    show("  frame ", gdb.newest_frame())
    show("  caller", gdb.newest_frame().older())
gdb.execute("kill")
