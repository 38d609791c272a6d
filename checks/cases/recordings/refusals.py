"""Recordings of a program of nine instructions with other bytes at offsets, which are refused: the header and the attribute; then records, of which
those before the refused one are read."""

import json

from perf_pieces import LEAF_COMMAND, LEAF_EXIT, LEAF_FRONT, LEAF_MAPPING, LOST, recording, summary

WHOLE = recording(LEAF_FRONT, [LOST, LEAF_COMMAND, LEAF_MAPPING, LEAF_EXIT])
PIPED = "the header of a pipe: offset 8; perf inject --itrace -i FILE -o OTHER, or perf record -o FILE, makes a file that can be read"
COMPRESSED = "compressed records at offset 304; perf record without -z makes a file that can be read"
# changes, how many records were lost, where any is read, and why it is refused
ROWS = {
    "piped": ({"0x8": "10"}, None, PIPED),
    "size of the header": ({"0x8": "60"}, None, "a header of an unknown size: offset 8"),
    "unfinished": ({"0x30": "0000000000000000"}, None, "an unfinished recording: offset 48"),
    "size of the attribute": ({"0x8c": "78"}, None, "an attribute of another size: offset 136"),
    "size of a record": ({"0x136": "0000"}, 10, "a record of a wrong size at offset 304"),
    "size beyond the end": ({"0x137": "ff"}, 10, "the file ends before what is to be read at offset 304"),
    "compressed": ({"0x130": "51"}, 10, COMPRESSED),
    "padded and compressed": ({"0x130": "53"}, 10, COMPRESSED),
}
INPUT = json.dumps({"arguments": ["--root", "."], "bytes": WHOLE.hex(), "files": {name: changes for name, (changes, _, _) in ROWS.items()}})
STATUS, EXPECTED = 1, ""
ERRORS = "".join((summary(0, lost=lost) if lost else "") + f"framehop-stacks: {name}: {why}\n" for name, (_, lost, why) in ROWS.items())
