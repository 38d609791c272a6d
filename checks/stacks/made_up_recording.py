#!/usr/bin/env python3
"""made_up_recording.py FILE [CASE]: writes a recording of aarch64 that no machine made, of which each stack is known by hand.

Without a case its processes have frame pointers only. It has a signed return address, a stack that was cut off, a sample without registers, a
new process, one that runs another program, a mapping over the middle of another, lost records, and records that are not in the
order of their times. The cases, whose output `checks/try_stacks.sh` has:

    cut         the same, of which the last record, that of lost records, is cut off
    short_comm  records without times, of which a PERF_RECORD_COMM after a sample ends before its fields do
    short_fork  a PERF_RECORD_FORK that ends before its fields do, in the order of times between two samples
    lost        two records of lost records, and of two threads that begin
    files       a mapping of each of 1,100 files, and a sample in the last
    lines       70,000 samples, each with a stack of its own
    long        a file with a name of 60,000 letters, which is twice in the stack of a sample
    build_ids   a section of build ids in which a record ends before it begins, so that none can be read
    chains      samples without copies of stacks, with call chains of the kernel and of the user's side
    kernel      samples with a copy of the stack, and a call chain of the kernel
    full        samples of whose stacks as much was copied as was asked for, of which one goes on, and one ends below the copy,
                and one further above it than a copy can be long
    vdso        a sample in the vdso
    events      samples of two events, which have names
    threads     a sample of each of two threads of a process
    deep        a sample whose stack has 601 frame records
    forked      a sample of a process that was forked off one that maps a file, and a process that maps another and has no sample
    executed    a process that runs another program before its only sample, one that does so after it, and one that does so after it
                has forked a process with a sample
    jit         samples in code of no file, for which `perf-300.map` of made_up_map.txt has names, and a process without such a map

Layout: Linux, include/uapi/linux/perf_event.h, and tools/perf/Documentation/perf.data-file-format.txt.
"""

import struct
import sys

PERF_RECORD_LOST, PERF_RECORD_COMM, PERF_RECORD_FORK, PERF_RECORD_SAMPLE, PERF_RECORD_MMAP2 = 2, 3, 7, 9, 10
IN_USER_SPACE, EXEC = 2, 0x2000
IP_TID_TIME_REGS_STACK, TIME, CALLCHAIN, IDENTIFIER = 0x3007, 4, 0x20, 0x10000
REGS_AND_STACK = 0x3000
CONTEXT_KERNEL, CONTEXT_USER = 2**64 - 128, 2**64 - 512
AARCH64_REGISTERS = 0x1_FFFF_FFFF
SAMPLE_ID_ALL = 1 << 18
BUILD_IDS, EVENT_DESC = 1 << 2, 1 << 12
STACK = 0x7000_0000


def padded(text):
    text = text.encode() + b"\0"
    return text + bytes(-len(text) % 8)


def record(kind, misc, body):
    return struct.pack("<IHH", kind, misc, 8 + len(body)) + body


def identified(kind, misc, body, pid, time):
    return record(kind, misc, body + struct.pack("<IIQ", pid, pid, time))


def comm(pid, name, time, misc=0):
    return identified(PERF_RECORD_COMM, misc, struct.pack("<II", pid, pid) + padded(name), pid, time)


def fork(pid, parent, time):
    return identified(PERF_RECORD_FORK, 0, struct.pack("<IIIIQ", pid, parent, pid, parent, time), pid, time)


def mapping(pid, start, size, offset, name, time):
    body = struct.pack("<IIQQQ", pid, pid, start, size, offset) + bytes(24) + struct.pack("<II", 5, 2) + padded(name)
    return identified(PERF_RECORD_MMAP2, IN_USER_SPACE, body, pid, time)


def lost(count, pid, time):
    return identified(PERF_RECORD_LOST, 0, struct.pack("<QQ", 0, count), pid, time)


def thread(pid, tid, time):
    """A thread of a process begins."""
    return identified(PERF_RECORD_FORK, 0, struct.pack("<IIIIQ", pid, pid, tid, pid, time), pid, time)


def sample(pid, time, pc, links, tid=None, frame_pointer=STACK):
    """A sample whose frame records, pairs of the caller's frame pointer and a return address, begin at the stack pointer; of
    the first thread, if none is named, and with the first record there, if its frame pointer says no other place."""
    stack = b"".join(struct.pack("<QQ", *link) for link in links)
    registers = [0] * 33
    registers[29], registers[31], registers[32] = frame_pointer, STACK, pc
    body = struct.pack("<QIIQQ", pc, pid, tid or pid, time, 2) + struct.pack("<33Q", *registers)
    return record(PERF_RECORD_SAMPLE, IN_USER_SPACE, body + struct.pack("<Q", len(stack)) + stack + struct.pack("<Q", len(stack)))


def sample_with_chain(pid, time, pc, chain, links=None):
    """A sample with a call chain, and with a copy of the stack where there are frame records."""
    head = struct.pack("<QIIQQ", pc, pid, pid, time, len(chain)) + struct.pack(f"<{len(chain)}Q", *chain)
    return record(PERF_RECORD_SAMPLE, IN_USER_SPACE, head + (sample(pid, time, pc, links)[32:] if links is not None else b""))


def sample_of_event(identifier, *what):
    made = sample(*what)
    return record(PERF_RECORD_SAMPLE, IN_USER_SPACE, struct.pack("<Q", identifier) + made[8:])


def sample_without_registers(pid, time):
    return record(PERF_RECORD_SAMPLE, IN_USER_SPACE, struct.pack("<QIIQQQ", 0, pid, pid, time, 0, 0))


def records():
    outer = (0, 0x10300)
    whole = [(STACK + 16, 0x10204), outer]
    signed = [(STACK + 16, 0x0042_0000_0001_0204), outer]
    cut_off = [(STACK + 0x1000, 0x10204)]
    return [
        comm(100, "app", 1),
        mapping(100, 0x10000, 0x3000, 0x1000, "/srv/app", 2),
        sample(100, 10, 0x10124, whole),
        # the third page is mapped anew, by another file
        sample(100, 30, 0x12008, whole),
        mapping(100, 0x11000, 0x1000, 0, "/srv/plug;in", 20),
        sample(100, 21, 0x11008, whole),
        sample(100, 11, 0x10124, signed),
        sample(100, 12, 0x10124, cut_off),
        sample_without_registers(100, 13),
        fork(200, 100, 40),
        sample(200, 41, 0x10124, whole),
        comm(200, "other", 50, EXEC),
        mapping(200, 0x10000, 0x1000, 0, "/srv/other", 52),
        # the third page is no longer mapped
        sample(200, 53, 0x12008, whole),
        lost(5, 100, 60),
    ]


def short(kind, pid, time):
    """A record that has nothing but its thread and its time."""
    return identified(kind, 0, b"", pid, time)


def untimed(pid, pc, links):
    """The same sample without a time."""
    timed = sample(pid, 0, pc, links)
    return timed[:6] + struct.pack("<H", len(timed) - 8) + timed[8:24] + timed[32:]


def app():
    return [comm(100, "app", 1), mapping(100, 0x10000, 0x3000, 0x1000, "/srv/app", 2)]


def short_comm():
    whole = [(STACK + 16, 0x10204), (0, 0x10300)]
    return app() + [untimed(100, 0x10124, whole), record(PERF_RECORD_COMM, 0, bytes(4)), untimed(100, 0x10128, whole)]


def short_fork():
    whole = [(STACK + 16, 0x10204), (0, 0x10300)]
    return app() + [sample(100, 20, 0x10128, whole), short(PERF_RECORD_FORK, 100, 15), sample(100, 10, 0x10124, whole)]


def thread(pid, tid, time):
    return identified(PERF_RECORD_FORK, 0, struct.pack("<IIIIQ", pid, pid, tid, pid, time), pid, time)


def lost_twice():
    threads = [thread(100, 101, 12), thread(100, 100, 13)]
    return app() + threads + [lost(5, 100, 10), sample(100, 20, 0x10124, [(0, 0x10204)]), lost(7, 100, 30)]


def files():
    name = "/srv/{:04}"
    maps = [mapping(100, 0x10000 + at * 0x1000, 0x1000, 0, name.format(at), 2 + at) for at in range(1100)]
    return [comm(100, "app", 1)] + maps + [sample(100, 5000, 0x10008 + 1099 * 0x1000, [(0, 0x10204)])]


def lines():
    maps = [comm(100, "app", 1), mapping(100, 0x10000, 0x200000, 0, "/srv/app", 2)]
    return maps + [sample(100, 10 + at, 0x20000 + 4 * at, [(0, 0x10204)]) for at in range(70000)]


def long():
    whole = [(STACK + 16, 0x10204), (0, 0x10300)]
    return [comm(100, "app", 1), mapping(100, 0x10000, 0x3000, 0x1000, "/srv/" + "x" * 60000, 2), sample(100, 10, 0x10124, whole)]


def unread_build_ids():
    return app() + [sample(100, 10, 0x10124, [(STACK + 16, 0x10204), (0, 0x10300)])]


def chains():
    kernel = [CONTEXT_KERNEL, 0xFFFF800000010010, 0xFFFF800000020020]
    user = [CONTEXT_USER, 0x10124, 0x10204, 0x10300]
    return app() + [
        sample_with_chain(100, 10, 0xFFFF800000010010, kernel + user),
        sample_with_chain(100, 20, 0x10124, user),
        sample_with_chain(100, 30, 0xFFFF800000010010, kernel),
        sample_with_chain(100, 40, 0x10124, []),
    ]


def kernel():
    in_kernel = [CONTEXT_KERNEL, 0xFFFF800000020000, 0xFFFF800000020001, 0xFFFF7FFFFFFFFFFF]
    return app() + [
        sample_with_chain(100, 10, 0x10124, in_kernel, [(STACK + 16, 0x10204), (0, 0x10300)]),
        sample_with_chain(100, 20, 0x10124, [], [(STACK + 16, 0x10204), (0, 0x10300)]),
    ]


def full():
    return app() + [
        sample(100, 10, 0x10124, [(STACK + 16, 0x10204), (0, 0x10300)]),
        sample(100, 20, 0x10124, [(STACK + 16, 0x10204), (STACK + 32, 0x10300)]),
        sample(100, 30, 0x10124, [(0, 0x10204)], frame_pointer=STACK - 16),
        sample(100, 40, 0x10124, [(0, 0x10204)], frame_pointer=STACK + 65528),
    ]


def vdso():
    whole = [(STACK + 16, 0x10204), (0, 0x10300)]
    return app() + [mapping(100, 0x70000, 0x1000, 0, "[vdso]", 3), sample(100, 10, 0x70024, whole), sample(100, 20, 0x10124, whole)]


def with_identifier(made):
    """A record that is no sample, with the id 0 at its end."""
    return made[:6] + struct.pack("<H", len(made) + 8) + made[8:] + struct.pack("<Q", 0)


def events():
    whole = [(STACK + 16, 0x10204), (0, 0x10300)]
    return [with_identifier(made) for made in app()] + [
        sample_of_event(1, 100, 10, 0x10124, whole),
        sample_of_event(2, 100, 20, 0x10128, whole),
        sample_of_event(2, 100, 30, 0x10128, whole),
    ]


def jit():
    whole = [(STACK + 16, 0x40104), (0, 0x10300)]
    return [
        comm(300, "vm", 1),
        mapping(300, 0x10000, 0x3000, 0x1000, "/srv/app", 2),
        mapping(300, 0x40000, 0x2000, 0, "//anon", 3),
        sample(300, 10, 0x40010, whole),
        # the first and the last address of later code over earlier code
        sample(300, 11, 0x40080, whole),
        sample(300, 12, 0x400DF, whole),
        sample(300, 13, 0x400E0, whole),
        # no line has it
        sample(300, 14, 0x41800, whole),
        fork(301, 300, 20),
        sample(301, 21, 0x40010, whole),
        comm(302, "other", 30),
        mapping(302, 0x50000, 0x1000, 0, "[anon:jit]", 31),
        sample(302, 32, 0x50008, [(0, 0x50010)]),
    ]


def threads():
    whole = [(STACK + 16, 0x10204), (0, 0x10300)]
    begun = [comm(100, "app", 1), mapping(100, 0x10000, 0x3000, 0x1000, "/srv/app", 2), thread(100, 101, 3)]
    return begun + [sample(100, 10, 0x10124, whole), sample(100, 20, 0x10128, whole, 101)]


def deep():
    return app() + [sample(100, 10, 0x10124, [(STACK + 16 * at, 0x10204) for at in range(1, 601)] + [(0, 0x10300)])]


def forked():
    whole = [(STACK + 16, 0x10204), (0, 0x10300)]
    unsampled = mapping(150, 0x10000, 0x1000, 0, "/srv/unsampled", 3)
    return app() + [unsampled, fork(200, 100, 5), sample(200, 10, 0x10124, whole)]


def executed():
    whole = [(STACK + 16, 0x10204), (0, 0x10300)]

    def program(pid, name, time):
        return [comm(pid, name, time, EXEC), mapping(pid, 0x10000, 0x3000, 0x1000, f"/srv/{name}", time + 1)]

    return [
        *program(100, "env", 1),
        *program(100, "app", 3),
        sample(100, 10, 0x10124, whole),
        *program(200, "first", 20),
        sample(200, 23, 0x10124, whole),
        *program(200, "last", 24),
        *program(300, "parent", 30),
        fork(301, 300, 33),
        *program(300, "unsampled", 34),
        sample(301, 37, 0x10124, whole),
    ]


CASES = {"short_comm": short_comm, "short_fork": short_fork, "lost": lost_twice, "files": files, "lines": lines, "long": long, "build_ids": unread_build_ids, "chains": chains, "kernel": kernel, "full": full, "vdso": vdso, "events": events, "jit": jit, "threads": threads, "deep": deep, "forked": forked, "executed": executed}


def event_names(names, ids):
    """The section of HEADER_EVENT_DESC: of each event its attribute, which is not read here, its name and its id."""
    section = struct.pack("<II", len(names), 128)
    for name, identifier in zip(names, ids):
        text = padded(name)
        section += bytes(128) + struct.pack("<II", 1, len(text)) + text + struct.pack("<Q", identifier)
    return section


def recording(body, fields=IP_TID_TIME_REGS_STACK, features=0, ids=()):
    """A recording of so many events as there are ids, or of one without an id."""
    attributes_at = 104
    count = max(len(ids), 1)
    attribute = struct.pack("<IIQQQQQ", 1, 128, 0, 1000, fields, 0, SAMPLE_ID_ALL if fields & TIME else 0)
    attribute += bytes(32) + struct.pack("<QI", AARCH64_REGISTERS if fields & REGS_AND_STACK else 0, 1024) + bytes(36)
    assert len(attribute) == 128
    ids_at = attributes_at + 144 * count
    records_at = ids_at + 8 * len(ids)
    header = b"PERFILE2" + struct.pack("<QQ", 104, 144)
    header += struct.pack("<QQQQQQ", attributes_at, 144 * count, records_at, len(body), 0, 0)
    header += struct.pack("<Q", features) + bytes(24)
    places = [(ids_at + 8 * at, 8) for at in range(count)] if ids else [(records_at, 0)]
    whole = header + b"".join(attribute + struct.pack("<QQ", *place) for place in places)
    whole += struct.pack(f"<{len(ids)}Q", *ids) + body
    if features == EVENT_DESC:
        section = event_names(["cycles", "task-clock"], ids)
        return whole + struct.pack("<QQ", len(whole) + 16, len(section)) + section
    # the section of build ids is one record, whose size says that it has no header
    return whole + struct.pack("<QQIHH", len(whole) + 16, 8, 0, 0, 0) if features == BUILD_IDS else whole


FORMS = {
    "short_comm": {"fields": IP_TID_TIME_REGS_STACK & ~TIME},
    "build_ids": {"features": BUILD_IDS},
    "chains": {"fields": IP_TID_TIME_REGS_STACK & ~REGS_AND_STACK | CALLCHAIN},
    "kernel": {"fields": IP_TID_TIME_REGS_STACK | CALLCHAIN},
    "events": {"fields": IP_TID_TIME_REGS_STACK | IDENTIFIER, "features": EVENT_DESC, "ids": (1, 2)},
}


def main():
    case = sys.argv[2] if len(sys.argv) > 2 else ""
    made = CASES.get(case, records)()
    whole = recording(b"".join(made), **FORMS.get(case, {}))
    with open(sys.argv[1], "wb") as file:
        file.write(whole[: -len(made[-1]) // 2] if case == "cut" else whole)


main()
