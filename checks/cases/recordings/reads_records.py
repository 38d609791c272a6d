"""The records of a program of nine instructions, of which perf wrote that ten were lost: after a PERF_RECORD_AUXTRACE with eight bytes after it and a
PERF_RECORD_FINISHED_ROUND, and by a header of the older size, which has no features."""

import json

from perf_pieces import LEAF_COMMAND, LEAF_EXIT, LEAF_FRONT, LEAF_MAPPING, LOST, ROUND, recording, summary

AUXTRACE = bytes.fromhex("470000000000100008000000000000000100000000000800")
WHOLE = recording(LEAF_FRONT, [LEAF_COMMAND, LEAF_MAPPING, LEAF_EXIT, AUXTRACE, ROUND, LOST])
INPUT = json.dumps({"arguments": ["--root", "."], "bytes": WHOLE.hex(), "files": {"recording": {}, "older": {"0x8": "48"}}})
EXPECTED = ""
ERRORS = summary(0, lost=10) * 2
