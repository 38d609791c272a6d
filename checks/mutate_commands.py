#!/usr/bin/env python3
"""mutate_commands.py PROGRAM COUNT FILE..: changed lists of commands.

PROGRAM is framehop-walk or framehop-explain.

Half of the changes are of bytes, as those of mutate_recordings.py; the others leave JSON: a value becomes another one, a byte of a
section another byte, a key or an element goes or comes twice. Each run must end with status 0, with status 1 and a refusal, or with
status 2 where memory runs out, within a second and one more for each megabyte; of refused input nothing is printed on standard
output. Prints how many ended by which status, what was refused how often, and the slowest run; with status 1 where a run ended
otherwise. The changes are the same in each run of this script.
"""

import json
import random
import re
import subprocess
import sys
import tempfile
import time
from collections import Counter

from mutate_recordings import changed

VALUES = [0, 1, 5, 65535, 65536, 2**64 - 1, 2**64, -1, 1.5, None, True, "", "0", "g", "ffffffffffffffff", "10000000000000000", [], {}, "walk", "x" * 70000]


def places(value, path=()):
    """The place of each value in a document, the document itself first."""
    yield path
    inner = value.items() if isinstance(value, dict) else enumerate(value) if isinstance(value, list) else ()
    for key, item in inner:
        yield from places(item, path + (key,))


def with_other_byte(text, source):
    at = source.randrange(len(text))
    return text[:at] + source.choice("0123456789abcdef") + text[at + 1 :]


def change_value(document, source):
    """Changes one value of a document in its place."""
    path = source.choice([path for path in places(document) if path])
    parent = document
    for key in path[:-1]:
        parent = parent[key]
    key, kind = path[-1], source.randrange(5)
    value = parent[key]
    if isinstance(value, str) and value and source.random() < 0.7:
        parent[key] = with_other_byte(value, source)
    elif isinstance(value, int) and source.random() < 0.5:
        parent[key] = value + source.choice([-1, 1, 255])
    elif kind == 0:
        del parent[key]
    elif kind == 1 and isinstance(parent, list):
        parent.insert(key, value)
    else:
        parent[key] = source.choice(VALUES)


def changed_commands(files, source):
    data = source.choice(files)
    if source.random() < 0.5:
        return bytes(changed([data], source))
    try:
        document = json.loads(data)
    except ValueError:
        return data
    if not isinstance(document, dict):
        return data
    for _ in range(source.choice([1, 1, 2, 5])):
        change_value(document, source)
    return json.dumps(document).encode()


def run(program, data):
    """The status, what is printed and said, and the seconds."""
    with tempfile.NamedTemporaryFile() as file:
        file.write(data)
        file.flush()
        start = time.time()
        try:
            done = subprocess.run([program, file.name], capture_output=True, timeout=60)
        except subprocess.TimeoutExpired:
            return "timeout", b"", "", 60.0
        return done.returncode, done.stdout, done.stderr.decode(errors="replace").strip(), time.time() - start


def is_as_it_should_be(status, printed, said):
    if status == 0:
        return True
    return status in (1, 2) and not printed and len(said.split("\n")) == 1 and said.startswith("framehop-")


def main():
    program, count = sys.argv[1], int(sys.argv[2])
    texts = (open(name, "rb").read() for name in sys.argv[3:])
    # cases that are run under both policies say so
    files = [text.replace(b'"policy":"both"', b'"policy":"may"') for text in texts if text]
    ends, refusals, slowest, bad = Counter(), Counter(), (0, None), []
    for seed in range(count):
        data = changed_commands(files, random.Random(seed))
        status, printed, said, took = run(program, data)
        ends[status] += 1
        slowest = max(slowest, (took, seed))
        if status != 0:
            refusals[re.sub(r"\d+", "N", said.split(": ", 1)[-1])] += 1
        if not is_as_it_should_be(status, printed, said) or took > 1 + len(data) / 1e6:
            bad.append((seed, status, took, said))
    print("status", dict(ends), "slowest %.2f s (seed %s)" % slowest)
    for text, number in refusals.most_common(40):
        print(f"{number:6} {text}")
    for seed, status, took, said in bad:
        print(f"bad: seed {seed}, status {status}, {took:.2f} s: {said}")
    sys.exit(1 if bad else 0)


main()
