"""The samples of task-clock in the recordings of the case tells_two_events_apart."""

import json
import runpy
from pathlib import Path

import perf_pieces

MADE = runpy.run_path(str(Path(__file__).with_name("tells_two_events_apart.py")))
INPUT = json.dumps({**MADE["CASE"], "arguments": ["--root", ".", "--frames", "--event", "task-clock:u"]})
EXPECTED = MADE["block"](MADE["TIMES"][1]) * 3
ERRORS = perf_pieces.summary(1, "frame-pointer-0 1") * 3
