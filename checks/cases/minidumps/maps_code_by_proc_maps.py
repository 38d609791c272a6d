"""A minidump with the stream of /proc/PID/maps. Each file has another return address, about the ends of
the regions: it is followed where it or the byte before it lies in a region that may be executed."""
import json
import struct

# what LLDB 19.1 wrote on Linux 6.18 (`process save-core --plugin-name=minidump --style stack`)
MAPS = """\
555555554000-555555555000 r--p 00000000 fe:00 10953026                   /usr/local/bin/crash
555555555000-555555556000 r-xp 00001000 fe:00 10953026                   /usr/local/bin/crash
555555556000-555555557000 r--p 00002000 fe:00 10953026                   /usr/local/bin/crash
555555557000-555555558000 r--p 00002000 fe:00 10953026                   /usr/local/bin/crash
555555558000-555555559000 rw-p 00003000 fe:00 10953026                   /usr/local/bin/crash
7ffff7dcf000-7ffff7dd2000 rw-p 00000000 00:00 0 
7ffff7dd2000-7ffff7df8000 r--p 00000000 fe:00 332835                     /usr/lib/x86_64-linux-gnu/libc.so.6
7ffff7df8000-7ffff7f4e000 r-xp 00026000 fe:00 332835                     /usr/lib/x86_64-linux-gnu/libc.so.6
7ffff7f4e000-7ffff7fa1000 r--p 0017c000 fe:00 332835                     /usr/lib/x86_64-linux-gnu/libc.so.6
7ffff7fa1000-7ffff7fa5000 r--p 001cf000 fe:00 332835                     /usr/lib/x86_64-linux-gnu/libc.so.6
7ffff7fa5000-7ffff7fa7000 rw-p 001d3000 fe:00 332835                     /usr/lib/x86_64-linux-gnu/libc.so.6
7ffff7fa7000-7ffff7fb4000 rw-p 00000000 00:00 0 
7ffff7fc0000-7ffff7fc2000 rw-p 00000000 00:00 0 
7ffff7fc2000-7ffff7fc6000 r--p 00000000 00:00 0                          [vvar]
7ffff7fc6000-7ffff7fc8000 r--p 00000000 00:00 0                          [vvar_vclock]
7ffff7fc8000-7ffff7fca000 r-xp 00000000 00:00 0                          [vdso]
7ffff7fca000-7ffff7fcb000 r--p 00000000 fe:00 332383                     /usr/lib/x86_64-linux-gnu/ld-linux-x86-64.so.2
7ffff7fcb000-7ffff7ff1000 r-xp 00001000 fe:00 332383                     /usr/lib/x86_64-linux-gnu/ld-linux-x86-64.so.2
7ffff7ff1000-7ffff7ffb000 r--p 00027000 fe:00 332383                     /usr/lib/x86_64-linux-gnu/ld-linux-x86-64.so.2
7ffff7ffb000-7ffff7ffd000 r--p 00031000 fe:00 332383                     /usr/lib/x86_64-linux-gnu/ld-linux-x86-64.so.2
7ffff7ffd000-7ffff7fff000 rw-p 00033000 fe:00 332383                     /usr/lib/x86_64-linux-gnu/ld-linux-x86-64.so.2
7ffffffde000-7ffffffff000 rw-p 00000000 00:00 0                          [stack]
ffffffffff600000-ffffffffff601000 --xp 00000000 00:00 0                  [vsyscall]
"""

# what LLDB printed of the process (`memory region --all`): the first address, that after the last, and whether there is code
REGIONS = [
    (0x555555554000, 0x555555555000, False),
    (0x555555555000, 0x555555556000, True),
    (0x555555556000, 0x555555557000, False),
    (0x555555557000, 0x555555558000, False),
    (0x555555558000, 0x555555559000, False),
    (0x7ffff7dcf000, 0x7ffff7dd2000, False),
    (0x7ffff7dd2000, 0x7ffff7df8000, False),
    (0x7ffff7df8000, 0x7ffff7f4e000, True),
    (0x7ffff7f4e000, 0x7ffff7fa1000, False),
    (0x7ffff7fa1000, 0x7ffff7fa5000, False),
    (0x7ffff7fa5000, 0x7ffff7fa7000, False),
    (0x7ffff7fa7000, 0x7ffff7fb4000, False),
    (0x7ffff7fc0000, 0x7ffff7fc2000, False),
    (0x7ffff7fc2000, 0x7ffff7fc6000, False),
    (0x7ffff7fc6000, 0x7ffff7fc8000, False),
    (0x7ffff7fc8000, 0x7ffff7fca000, True),
    (0x7ffff7fca000, 0x7ffff7fcb000, False),
    (0x7ffff7fcb000, 0x7ffff7ff1000, True),
    (0x7ffff7ff1000, 0x7ffff7ffb000, False),
    (0x7ffff7ffb000, 0x7ffff7ffd000, False),
    (0x7ffff7ffd000, 0x7ffff7fff000, False),
    (0x7ffffffde000, 0x7ffffffff000, False),
    (0xffffffffff600000, 0xffffffffff601000, True),
]

# lines of other forms among those that are of the form: LLDB leaves them out, too, except that it reads no digits as 0, and any
# fourth letter
OTHER_LINES = """\
1000-2000 r-xp 00000000 00:00 0
3000-4000 r-xs
x5000-6000 r-xp 0

7000-8000
9000 a000 r-xp 0
-b000 r-xp 0
c000- r-xp 0
10000000000000000-10000000000001000 r-xp 0
0000000000d00000-0000000000d01000 r-xp 0
d1000-d2000 r-x
d3000-d4000 rwxq
d5000-d6000 xwrp
ABC000-ABD000 --xp
e1000-e0000 r-xp
fffffffffffff000-ffffffffffffffff --xs no more
f1000-f2000  r-xp
f3000-f4000 rwxp\tx
f5000-f6000 ---p"""

# the regions of those that are of the form, and the first addresses of the others
OTHER_REGIONS = [
    (0x1000, 0x2000, True),
    (0x3000, 0x4000, True),
    (0xd00000, 0xd01000, True),
    (0xabc000, 0xabd000, True),
    (0xfffffffffffff000, 0xffffffffffffffff, True),
    (0xf3000, 0xf4000, True),
    (0xf5000, 0xf6000, False),
]
LEFT_OUT = [0x5000, 0x7000, 0x9000, 0xb000, 0xc000, 0xd1000, 0xd3000, 0xd5000, 0xe0000, 0xe1000, 0xf1000]

PROGRAM = "/usr/local/bin/crash"
OTHER_THREAD = f"crash 31455/31458:\n#0 401088 wait_for_ever+0x16 ({PROGRAM})\n#1 4010be run+0x34 ({PROGRAM}) [cfi]\n[limit]\n\n"


def probes(regions, others=()):
    """Return addresses, each with whether it is followed."""
    code = [(start, end) for start, end, is_code in regions if is_code]
    places = [at + by for start, end, _ in regions for at in (start, end) for by in (-1, 0, 1)] + [at + 1 for at in others]
    return [(at, any(start <= byte < end for start, end in code for byte in (at - 1, at))) for at in dict.fromkeys(places) if at < 2**64]


def changes(address, maps):
    """The stream is at the end of the file, at 0x3663, the directory has its size at 0x84, and the word is at 0x281f."""
    stream = struct.pack("<II", len(maps), 0x3663)
    return {"0x84": stream.hex(), "0x281f": struct.pack("<Q", address).hex(), "add": maps.encode().hex()}


def block(address, is_code):
    end = f"#1 {address:x} [unknown] ([unknown]) [cfi]\n[limit]" if is_code else f"[not-code {address:x}]"
    return f"crash 31455/31455 crashed by SIGSEGV:\n#0 40104e inner+0x4e ({PROGRAM})\n{end}\n\n{OTHER_THREAD}"


OF_LLDB, OTHERS = probes(REGIONS), probes(OTHER_REGIONS, LEFT_OUT)
INPUT = json.dumps({
    "arguments": ["--root", ".", "--limit", "2"],
    "file": "crates/framehop_stacks_cli/data/crash.dmp",
    # the second module, which is at an address of the maps, is elsewhere
    "with": {"0x18e": struct.pack("<Q", 0x7f0000000000).hex()},
    "files": {
        **{f"{address:x}": changes(address, MAPS) for address, _ in OF_LLDB},
        **{f"{address:x} by other lines": changes(address, OTHER_LINES) for address, _ in OTHERS},
    },
    "beside": {PROGRAM[1:]: {"file": "crates/framehop_stacks_cli/data" + PROGRAM}},
})
EXPECTED = "".join(block(*it) for it in OF_LLDB + OTHERS)
