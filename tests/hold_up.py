#!/usr/bin/env python3
"""Calls of the helper that their user holds up, at each of their system calls, and lets go under another's lock.

    tests/hold_up.py HELPER TIMES ROOM [AGENT]

To be run as root where /var/mail is a mount of mode 2775 and the group mail, and the users ann and bob are there: tests/spool does it. ROOM is an empty
folder. Of each operation TIMES calls by ann are held up behind one of their system calls. A call can do nothing between two of them, so this is each
moment of it. Then ann takes her lock away, if she can, and root locks the mailbox and changes it, and the held call goes on; half as often another call of
hers has the lock, and a quarter as often another folder is put in the place of the one of mailboxes. Nothing may be taken away, or replaced, under that
lock, and nothing of root's at all. Bob gets a message each time. With the delivery agent AGENT, root delivers by it too, while the call goes on. The
messages are counted by Python's reader of mailboxes. Prints a line for each difference and, last, how many calls were held.
"""
import ctypes
import mailbox
import os
import subprocess
import sys

HELPER, TIMES = sys.argv[1], int(sys.argv[2])
ROOM = sys.argv[3]
AGENT = sys.argv[4] if len(sys.argv) > 4 else None
FOLDER = "/var/mail/"
TOKEN, OTHER = "00000000000000ad", "00000000000000ae"
MAILBOX, LOCK, BESIDE, STAGED = "ann", "ann.lock", "ann.lock.mx" + TOKEN, "ann.mx" + TOKEN
OPERATIONS = ("erase", "unlock", "publish", "discard", "stage", "lock")
TRACE_ME, DETACH, SYSCALL = 0, 17, 24
libc = ctypes.CDLL(None, use_errno=True)
libc.ptrace.argtypes = [ctypes.c_long, ctypes.c_long, ctypes.c_void_p, ctypes.c_void_p]
ids = {}
for line in open("/etc/passwd"):
    fields = line.split(":")
    if len(fields) > 3:
        ids.setdefault(fields[0], (fields[2], fields[3]))
ANN, BOB = int(ids["ann"][0]), int(ids["bob"][0])
ANNS_GROUP = int(ids["ann"][1])
failed = []
held_up = 0
delivered = {"bob": 0}


def differs(what, wanted, got):
    if wanted != got:
        failed.append(what)
        print(f"tests/hold_up: {what}\n  wanted: {wanted!r}\n  got:    {got!r}")


def start(operation, token, traced=False):
    """A call by ann; its process. What is staged is one message."""
    out, into = os.pipe()
    os.write(into, b"From ann Mon Jan  1 10:00:00 2024\n\nstaged\n\n")
    os.close(into)
    pid = os.fork()
    if pid:
        os.close(out)
        return pid
    try:
        if traced:
            libc.ptrace(TRACE_ME, 0, None, None)
        nothing = os.open("/dev/null", os.O_WRONLY)
        os.dup2(out, 0)
        os.dup2(nothing, 1)
        os.dup2(nothing, 2)
        os.setgroups([])
        os.setgid(ANNS_GROUP)
        os.setuid(ANN)
        os.execv(HELPER, [HELPER, operation, "ann", token])
    finally:
        os._exit(127)


def ended(pid):
    return os.waitstatus_to_exitcode(os.waitpid(pid, 0)[1])


def call(operation, token=TOKEN):
    return ended(start(operation, token))


def held(operation, stops):
    """A call that stands behind so many stops at system calls; its process, and its status if it ended before."""
    pid = start(operation, TOKEN, traced=True)
    status = os.waitpid(pid, 0)[1]
    for _ in range(stops):
        libc.ptrace(SYSCALL, pid, None, None)
        status = os.waitpid(pid, 0)[1]
        if not os.WIFSTOPPED(status):
            return pid, os.waitstatus_to_exitcode(status)
    return pid, None


def let_go(pid):
    libc.ptrace(DETACH, pid, None, None)


def is_inside(pid):
    return os.readlink(f"/proc/{pid}/cwd") + "/" == FOLDER


def stops_of(operation):
    """The stops of a call, one before each system call and one behind it: the first on its way to the folder, and how many there are then."""
    prepare(operation)
    pid = start(operation, TOKEN, traced=True)
    first, count = None, -1
    while os.WIFSTOPPED(os.waitpid(pid, 0)[1]):
        count += 1
        if first is None and is_inside(pid):
            first = count - 16
        libc.ptrace(SYSCALL, pid, None, None)
    return first, count - first


def put(name, text, owner=0, mode=0o600):
    """A new file, in the place of what stood there."""
    if os.path.lexists(FOLDER + name):
        os.remove(FOLDER + name)
    with open(FOLDER + name, "x") as file:
        file.write(text)
    os.chown(FOLDER + name, owner, -1)
    os.chmod(FOLDER + name, mode)


def message(text):
    return f"From root Mon Jan  1 10:00:00 2024\n\n{text}\n\n"


def prepare(operation):
    """What stands before a call."""
    for name in os.listdir(FOLDER):
        if name == "ann" or name.startswith("ann."):
            os.remove(FOLDER + name)
    put(MAILBOX, message("old"), ANN, 0o660)
    if operation != "lock":
        differs("a lock before a call", 0, call("lock"))
    if operation in ("publish", "discard"):
        differs("what is staged before a call", 0, call("stage"))


def told(name):
    """Which file stands at a name, whose it is, and what is in it."""
    try:
        found = os.lstat(FOLDER + name)
        with open(FOLDER + name) as file:
            return found.st_ino, found.st_uid, file.read()
    except FileNotFoundError:
        return None


def add(name, owner, text):
    """Puts a message behind a mailbox that its lock holds."""
    with open(FOLDER + name, "a") as file:
        file.write(message(text))
    os.chown(FOLDER + name, owner, -1)


def roots_lock(name):
    """Root's lock, as the delivery agent puts it: whether it was free. Root's run has the token of the call that is held up."""
    put(f"{name}.lock.mx{TOKEN}", TOKEN)
    try:
        os.link(FOLDER + f"{name}.lock.mx{TOKEN}", FOLDER + f"{name}.lock")
        return True
    except FileExistsError:
        return False
    finally:
        os.remove(FOLDER + f"{name}.lock.mx{TOKEN}")


def by_root(operation, pid, where):
    """Root delivers to ann while a call of hers goes on. Where her lock stands, root's try takes its second name away, so she can't unlock any more."""
    if not roots_lock("ann"):
        let_go(pid)
        ended(pid)
        for name in (LOCK, STAGED):
            if told(name):
                os.remove(FOLDER + name)
        return
    put(STAGED, "root's")
    stood = told(MAILBOX) is not None
    add(MAILBOX, ANN, "new")
    before = [told(name) for name in (LOCK, STAGED, MAILBOX)]
    let_go(pid)
    ended(pid)
    differs(f"{where}: root's lock, root's staged file and the mailbox", before, [told(name) for name in (LOCK, STAGED, MAILBOX)])
    count("ann", where, 1 + stood)
    for name in (LOCK, STAGED):
        if told(name):
            os.remove(FOLDER + name)


def by_another(operation, pid, where):
    """Another call of ann's has the lock while the held one goes on."""
    if call("lock", OTHER) != 0:
        let_go(pid)
        ended(pid)
        return
    names = (LOCK, "ann.lock.mx" + OTHER, MAILBOX)
    before = [told(name) for name in names]
    let_go(pid)
    ended(pid)
    differs(f"{where}: another's lock and the mailbox", before, [told(name) for name in names])
    differs(f"{where}: another's lock is taken away", 0, call("unlock", OTHER))
    differs(f"{where}: it is gone", None, told(LOCK))


def by_agent(operation, pid, where):
    """The delivery agent delivers to ann and bob while the call goes on, and then to bob alone."""
    agent = deliver(["ann", "bob"], where)
    let_go(pid)
    ended(pid)
    both = how_ended(agent, f"{where}: a delivery to ann and bob", (0, 7))
    if both == 0:
        differs(f"{where}: what ann got", 1, (told(MAILBOX) or ("", "", ""))[2].count(f"Subject: {where}\n"))
    alone = how_ended(deliver(["bob"], where), f"{where}: a delivery to bob", (0,))
    delivered["bob"] += (both == 0) + (alone == 0)


def how_ended(agent, what, allowed):
    said = agent.communicate(timeout=600)[1]
    if agent.returncode not in allowed:
        differs(what, allowed, (agent.returncode, said))
    return agent.returncode


def deliver(users, where):
    agent = subprocess.Popen([AGENT, "-r", "root@x", *users], stdin=subprocess.PIPE, stdout=subprocess.DEVNULL, stderr=subprocess.PIPE,
                             env={"PATH": os.environ["PATH"], "LOGNAME": "root", "TZ": "UTC0", "MAILX_WAIT": "0"})
    agent.stdin.write(f"Subject: {where}\n\ntext\n".encode())
    agent.stdin.close()
    agent.stdin = None
    return agent


def count(user, where, wanted):
    found = mailbox.mbox(FOLDER + user, create=False) if told(user) else []
    differs(f"{where}: the messages of {user}", wanted, len(found))


def by_other_folder(operation, pid, where):
    """Another folder comes in the place of the folder of mailboxes, in which all names are those of ann's files too. A call that isn't there yet goes
    into it."""
    if not is_inside(pid):
        let_go(pid)
        ended(pid)
        return
    subprocess.run(["mount", "--bind", ROOM, FOLDER], check=True)
    for name in (MAILBOX, LOCK, STAGED):
        put(name, "another's", ANN)
    os.link(FOLDER + LOCK, FOLDER + BESIDE)
    before = sorted(os.listdir(FOLDER)), told(MAILBOX), told(LOCK), told(STAGED)
    let_go(pid)
    ended(pid)
    differs(f"{where}: another folder", before, (sorted(os.listdir(FOLDER)), told(MAILBOX), told(LOCK), told(STAGED)))
    for name in os.listdir(FOLDER):
        os.remove(FOLDER + name)
    subprocess.run(["umount", FOLDER], check=True)


def attempt(operation, stops, meanwhile):
    """One call that is held up. What others do in the meantime is nothing where it has ended before."""
    global held_up
    where = f"{operation}, held up at stop {stops}, {meanwhile.__name__}"
    prepare(operation)
    pid, status = held(operation, stops)
    if status is not None:
        return
    held_up += 1
    freed = call("unlock")
    if freed not in (0, 6):
        differs(f"{where}: ann takes her lock away", (0, 6), freed)
    meanwhile(operation, pid, where)
    add("bob", BOB, where)
    delivered["bob"] += 1
    call("lock")
    call("discard")
    differs(f"{where}: what is left is taken away", 0, call("unlock"))
    differs(f"{where}: what is left", ["ann"] if told(MAILBOX) else [], sorted(n for n in os.listdir(FOLDER) if n == "ann" or n.startswith("ann.")))


put("bob", "", BOB, 0o660)
ways = [(by_root, TIMES), (by_another, TIMES // 2), (by_other_folder, TIMES // 4)] + ([(by_agent, TIMES // 5)] if AGENT else [])
for operation in OPERATIONS:
    first, span = stops_of(operation)
    for way, times in ways:
        for k in range(times):
            attempt(operation, first + (k * span // times if times < span else k % span), way)
count("bob", "all calls", delivered["bob"])
print(f"tests/hold_up: {held_up} calls were held up, {len(failed)} differences")
sys.exit(1 if failed else 0)
