"""The records of two events of which `perf script -F time,event` prints the times, in another order in the file: both samples are after the exec, so
their thread is called leaf. Then those of one event, also where samples have no address before their id, and where the time of the exec says that
there is none."""

import json
import struct

from perf_pieces import EVENTS_CPU_CLOCK, EVENTS_EXEC, EVENTS_EXIT, EVENTS_FRONT, EVENTS_MADE_UP, EVENTS_TASK_CLOCK, ROUND, changed, recording, summary

# the sample_type of both attributes without PERF_SAMPLE_ADDR
SHORT_FRONT = changed(EVENTS_FRONT, (192, b"\x67"), (336, b"\x67"))
TIMELESS = changed(EVENTS_EXEC, (32, b"\xff" * 8))
EVENT_DESC = 1 << 12


def sample(first, address=bytes(8)):
    """A sample: its first fields, an empty call chain, registers of 0, no stack and no source."""
    body = first[:24] + address + first[32:] + struct.pack("<QQ", 0, 2) + bytes(20 * 8) + bytes(16)
    return struct.pack("<IHH", 9, 2, 8 + len(body)) + body


def names(at):
    """The names of the events, each with the four ids that `perf script -D` prints."""
    section = struct.pack("<II", 2, 128)
    for name, first in ((b"cpu-clock:u", 8), (b"task-clock:u", 12)):
        section += bytes(128) + struct.pack("<II16s4Q", 4, 16, name, *range(first, first + 4))
    return struct.pack("<QQ", at + 16, len(section)) + section


def events(front, samples, execution=EVENTS_EXEC):
    cpu_clock, task_clock = samples
    return recording(front, [EVENTS_EXIT, task_clock, EVENTS_MADE_UP, cpu_clock, ROUND, execution], EVENT_DESC, names).hex()


def block(time):
    return f"leaf 7570/7570 {time}:\n0 [unknown] ([unknown])\n[frame-pointer-0]\n\n"


CPU_CLOCK, TASK_CLOCK = sample(EVENTS_CPU_CLOCK), sample(EVENTS_TASK_CLOCK)
SHORT = sample(EVENTS_CPU_CLOCK, b""), sample(EVENTS_TASK_CLOCK, b"")
FILES = {"events": events(EVENTS_FRONT, (CPU_CLOCK, TASK_CLOCK)), "without addresses": events(SHORT_FRONT, SHORT), "timeless": events(EVENTS_FRONT, (CPU_CLOCK, TASK_CLOCK), TIMELESS)}
TIMES = 2553830558905, 2553830572100
CASE = {"bytes": "", "files": {name: {"end": "0x0", "add": made} for name, made in FILES.items()}}
INPUT = json.dumps({**CASE, "arguments": ["--root", ".", "--frames"]})
EXPECTED = "".join(block(time) for time in TIMES) * 3
ERRORS = summary(2, "frame-pointer-0 2") * 3
