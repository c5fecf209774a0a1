"""What tests of the built program in Python share: the program, texts without dates, and the calls of a run that may change a file. A test that takes it
sets `sys.dont_write_bytecode` first, and puts this folder in front of `sys.path`."""
import collections
import os
import re
import shutil
import subprocess
import sys

TOP = os.path.dirname(os.path.dirname(os.path.abspath(__file__)))
# A call of a run: its name, its number among the calls of that name, and its line in a trace.
Call = collections.namedtuple("Call", "name number line")
# Removals on which nothing depends: of what isn't there, before it is made, of a lock's second name, and of what an editor was given.
SPARE = re.compile(r'unlink(?:at)?\(.*(?:"[,)].*= -1 ENOENT|(?:\.lock\.mx|\.edit\.)[0-9a-f]{16}"[,)].*= 0$)')
CALLS = "open openat creat write writev pwrite64 ftruncate flock fsync fdatasync rename renameat renameat2 link linkat unlink unlinkat fchmod fchown".split()


def program(name="mailx"):
    """The program that MAILX_PROGRAM names, or MAIL_DELIVER_PROGRAM, or else the one that `scripts/build` builds, which is built then."""
    named = os.environ.get(name.upper() + "_PROGRAM")
    if not named and subprocess.run([os.path.join(TOP, "scripts", "build"), name], check=False).returncode:
        sys.exit(1)
    return named or os.path.join(TOP, "crates", name, "out", name)


def can_trace():
    """Whether strace is there and may trace."""
    return bool(shutil.which("strace")) and not subprocess.run(["strace", "-o", "/dev/null", "true"], stderr=subprocess.DEVNULL, check=False).returncode


def undated(text):
    """The text without the moments at which this run made it."""
    text = re.sub(rb"^Date: \w{3}, \d\d \w{3} \d{4} \d\d:\d\d:\d\d \+0000$", b"Date: NOW", text, flags=re.M)
    return re.sub(rb"^From u \w{3} \w{3} [ \d]\d \d\d:\d\d:\d\d \d{4}$", b"From u NOW", text, flags=re.M)


def tracing(log):
    """What a run is traced by, whose calls are to stand in the file `log`; its children are not."""
    return ["strace", "-y", "-o", log, "-e", "trace=" + ",".join("?" + it for it in CALLS)]


def changing_calls(log):
    """Each call of a trace that may change a file."""
    counts, found = {}, []
    with open(log, encoding="utf-8", errors="replace") as lines:
        for line in lines:
            at = re.match(r"(\w+)\((\d*)", line)
            if not at or at.group(1) not in CALLS:
                continue
            name = at.group(1)
            counts[name] = counts.get(name, 0) + 1
            if name.startswith("open") and not re.search("O_CREAT|O_WRONLY|O_RDWR", line) or at.group(2) in ("1", "2") and name.startswith("write"):
                continue
            found.append(Call(name, counts[name], line.rstrip()))
    return found


def may_be_passed_over(call, error):
    """Whether a run may go on as if nothing had failed where this call met this error. An input for which a folder has no room is made in another one."""
    return bool(SPARE.match(call.line)) or error == "ENOSPC" and "/.mailx.in." in call.line


def injecting(call, what):
    """What a run is traced by so that a call, by its name and its number, meets an error or a signal, as `error=EIO`."""
    name, number = call[:2]
    return ["strace", "-o", "/dev/null", "-e", f"trace={name}", "-e", f"inject={name}:{what}:when={number}"]
