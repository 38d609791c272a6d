#!/usr/bin/env python3
"""blocks_of_json.py [folded] <JSON: prints the blocks of a dump's threads, or of a recording's samples, by its JSON, or the folded stacks of
the latter. They are those that framehop-stacks prints without --json."""
import json
import sys
from collections import Counter
from pathlib import Path

sys.dont_write_bytecode = True
sys.path.insert(0, str(Path(__file__).resolve().parents[2] / "tools"))
from blocks import label_of, line_of


def print_block(head, stack, numbered):
    end = f" {int(stack['end_address'], 16):x}" if stack["end_address"] is not None else ""
    print(f"{head}:", *(line_of(frame, numbered) for frame in stack["frames"]), f"[{stack['end']}{end}]", "", sep="\n")


def print_dump(dump):
    program = dump["program"] or "[unknown]"
    for thread in dump["threads"]:
        numbers = f"{dump['pid']}/{thread['tid']}" if dump["pid"] is not None else str(thread["tid"])
        name = f' "{thread["name"]}"' if thread["name"] is not None else ""
        crashed = f" crashed by {dump['crash']['reason']}" if thread["crashed"] else ""
        assert thread["crashed"] == (dump["crash"] is not None and dump["crash"]["tid"] == thread["tid"])
        print_block(f"{program} {numbers}{name}{crashed}", thread, True)


def print_sample(sample):
    assert sample["count"] == 1
    numbers = f" {sample['pid']}/{sample['tid']}" if sample["pid"] is not None else ""
    time = f" {sample['time']}" if sample["time"] is not None else ""
    print_block(f"{sample['name']}{numbers}{time}", sample, False)


def label(frame):
    if frame["signal_trampoline"]:
        return "<signal handler called>"
    return frame["function"] and frame["function"]["name"] or label_of(frame)


def folded(stack):
    """The folded stack of a stack without its count: a chain has a mark, too, and so has a walk that did not end at a root."""
    thread = f"-{stack['pid']}/{stack['tid']}" if stack["pid"] is not None else ""
    marks = [f"[{stack['end']}]"] if stack["end"] != "root" else []
    return ";".join([stack["name"] + thread, *marks, *map(label, reversed(stack["frames"]))])


def main():
    counts = Counter()
    for line in sys.stdin:
        value = json.loads(line)
        if "threads" in value:
            print_dump(value)
        elif sys.argv[1:] == ["folded"] and "frames" in value:
            counts[folded(value)] += value["count"]
        elif "frames" in value:
            print_sample(value)
    for stack, count in sorted((stack.encode(), count) for stack, count in counts.items()):
        print(f"{stack.decode()} {count}")


main()
