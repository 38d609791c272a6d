"""Run by gdb on a core file: prints `thread index: address` of each frame, the innermost (index 0) first.

An address is the frame's pc as gdb has it: of the innermost frame and of one that a signal interrupted the next instruction, of all
others the return address. Frames that gdb makes up for inlined functions and for calls that ended by a jump are left out.
"""
import gdb

gdb.execute("set pagination off")
gdb.execute("set backtrace past-main on")
gdb.execute("set backtrace past-entry on")
for thread in sorted(gdb.selected_inferior().threads(), key=lambda it: it.num):
    thread.switch()
    frame, index = gdb.newest_frame(), 0
    while frame is not None:
        if frame.type() not in (gdb.INLINE_FRAME, gdb.TAILCALL_FRAME):
            print(f"frame {thread.ptid[1] or thread.ptid[0]} {index}: {frame.pc():x}")
            index += 1
        try:
            frame = frame.older()
        except gdb.error as error:
            print(f"# thread {thread.ptid[1]}: gdb stops: {error}")
            break
