"""Imported by LLDB below a stopped process: prints `thread index: address` of each frame, the innermost (index 0) first.

An address is the frame's pc as LLDB has it: of the innermost frame and of one that a signal interrupted the next instruction, of all
others the return address. A function and those that are inlined there have the same CFA, and the first of these frames has the address;
frames that LLDB makes up for calls that ended by a jump are left out.
"""


def __lldb_init_module(debugger, _):
    for thread in debugger.GetSelectedTarget().GetProcess():
        index, last = 0, None
        for frame in thread:
            if frame.IsArtificial():
                continue
            if frame.GetCFA() != last:
                print(f"frame {thread.GetThreadID()} {index}: {frame.GetPC():x}")
                index += 1
            last = frame.GetCFA()
