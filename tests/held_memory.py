#!/usr/bin/env python3
"""What a program holds in memory while a file stands.

    tests/held_memory.py NAME PROGRAM [WORD..]

Runs the program over the standard input and stops it at each of its system calls. Prints the most memory, in bytes, that was resident there while a file
stood whose path begins with NAME; or in words that none stood, or how the program ended if not with 0.
"""
import ctypes
import glob
import os
import signal
import sys

name, words = sys.argv[1], sys.argv[2:]
TRACE_ME, SYSCALL = 0, 24
libc = ctypes.CDLL(None, use_errno=True)
libc.ptrace.argtypes = [ctypes.c_long, ctypes.c_long, ctypes.c_void_p, ctypes.c_void_p]


def resident(pid):
    with open(f"/proc/{pid}/status") as told:
        return max((int(line.split()[1]) * 1024 for line in told if line.startswith("VmRSS:")), default=0)


pid = os.fork()
if not pid:
    try:
        libc.ptrace(TRACE_ME, 0, None, None)
        os.execv(words[0], words)
    finally:
        os._exit(127)
status = os.waitpid(pid, 0)[1]
most = 0
while os.WIFSTOPPED(status):
    if glob.glob(glob.escape(name) + "*"):
        most = max(most, resident(pid))
    met = os.WSTOPSIG(status)
    libc.ptrace(SYSCALL, pid, None, None if met == signal.SIGTRAP else met)
    status = os.waitpid(pid, 0)[1]
code = os.waitstatus_to_exitcode(status)
print(f"status {code}" if code else most or "no file stood")
