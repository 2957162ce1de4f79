"""Tests of real deliverers, owners and directories: disk.py PROGRAM DIRECTORY. The last line is 'N passed, M failed'."""
import collections
import email
import fcntl
import mailbox
import os
import re
import shutil
import signal
import subprocess
import sys
import threading
import time

PROGRAM, ROOM = os.path.abspath(sys.argv[1]), os.path.abspath(sys.argv[2])
HOME = f"{ROOM}/home"
MAIL = f"{HOME}/Mail"
DROP = f"{HOME}/drop"
IS_ROOT = os.geteuid() == 0
NOBODY = 65534
passed = failed = 0


def check(name, good, more=""):
    global passed, failed
    if good:
        passed += 1
    else:
        failed += 1
        print(f"failed: {name} {more}")


def skip(name, why):
    print(f"skipped: {name}: {why}")


def message(uid, lines=3):
    """Its uid stands at the beginning and at the end, so that a torn one is seen."""
    head = f"From: u@many.example\nSubject: uid {uid}\nDate: Tue, 02 Jun 2026 10:00:00 +0000\n\n"
    return (head + f"a line of {uid}\n" * lines + f"end of {uid}\n").encode()


def delivery(uid, lines=3):
    return b"From u@many.example Tue Jun  2 10:00:00 2026\n" + message(uid, lines) + b"\n"


def write(path, data):
    with open(path, "wb") as f:
        f.write(data)


def read(path):
    try:
        with open(path, "rb") as f:
            return f.read()
    except FileNotFoundError:
        return None


def fresh(folders=None, drop=b""):
    """A mailbox anew: folders with the uids of their messages, and a drop."""
    shutil.rmtree(HOME, ignore_errors=True)
    os.makedirs(MAIL)
    write(f"{HOME}/.mh_profile", b"Path: Mail\nMailDrop: drop\n")
    write(DROP, drop)
    for folder, uids in (folders or {"inbox": []}).items():
        os.makedirs(f"{MAIL}/{folder}")
        for n, uid in enumerate(uids, 1):
            write(f"{MAIL}/{folder}/{n}", message(uid))


def mh(*words, **more):
    given = dict(env={"HOME": HOME}, cwd=HOME, stdin=subprocess.DEVNULL, capture_output=True, text=True, timeout=50)
    return subprocess.run([PROGRAM, *words], **{**given, **more})


def numbers(folder):
    return sorted(int(it) for it in os.listdir(f"{MAIL}/{folder}") if it.isdigit())


def uids():
    """How often each uid stands whole at a number, and the names of what is not whole."""
    found, torn = collections.Counter(), []
    for at, _, names in os.walk(MAIL):
        for name in names:
            if name.isdigit():
                data = read(f"{at}/{name}") or b""
                uid = re.search(rb"^Subject: uid (\S+)$", data, re.M)
                uid = uid.group(1).decode() if uid else ""
                if uid and data.rstrip(b"\n").endswith(f"end of {uid}".encode()):
                    found[uid] += 1
                else:
                    torn.append(name)
    return found, torn


def left(folder):
    return [it for it in os.listdir(f"{MAIL}/{folder}") if it.startswith((".mh_held_", ".mh_temp_"))]


# Deliverers.


def append(data, lock=None):
    """Appends in two writes, as a large delivery comes."""
    with open(DROP, "ab", buffering=0) as f:
        if lock:
            lock(f, fcntl.LOCK_EX)
        half = len(data) // 2
        f.write(data[:half])
        time.sleep(0.002)
        f.write(data[half:])


def by_flock(uid):
    append(delivery(uid), fcntl.flock)


def by_dot(uid):
    while True:
        try:
            os.close(os.open(DROP + ".lock", os.O_CREAT | os.O_EXCL, 0o600))
            break
        except FileExistsError:
            time.sleep(0.002)
    append(delivery(uid))
    os.unlink(DROP + ".lock")


def by_mailbox(uid):
    box = mailbox.mbox(DROP)
    while True:
        try:
            box.lock()
            break
        except mailbox.ExternalClashError:
            time.sleep(0.002)
    box.add(email.message_from_bytes(message(uid)))
    box.flush()
    box.unlock()
    box.close()


def deliveries(kind, count, incs):
    """Deliveries while these commands run in loops."""
    fresh()
    stop, ends = threading.Event(), collections.Counter()

    def loop(words):
        while not stop.is_set():
            done = mh(*words)
            ends[done.returncode, done.stderr.strip()] += 1

    threads = [threading.Thread(target=loop, args=(words,)) for words in incs]
    for it in threads:
        it.start()
    for n in range(count):
        kind(f"d{n}")
    stop.set()
    for it in threads:
        it.join()
    last = mh("inc", "-silent")
    found, torn = uids()
    return found, torn, last, ends


def deliverers():
    for kind in (by_flock, by_dot, by_mailbox):
        found, torn, last, ends = deliveries(kind, 40, [("inc", "-silent")])
        lost = [n for n in range(40) if not found[f"d{n}"]]
        doubled = [uid for uid, count in found.items() if count > 1]
        name = kind.__name__
        check(f"{name}: nothing is lost, torn or doubled", not lost and not torn and not doubled, f"{lost} {torn} {doubled}")
        check(f"{name}: each call ends well", last.returncode in (0, 1) and all(it[0] in (0, 1) for it in ends), f"{ends}")
        check(f"{name}: the drop is free afterwards", not os.path.exists(DROP + ".lock"))


def two_incs():
    """Two `inc` on one drop, into two folders."""
    for kind in (by_flock, by_dot):
        found, torn, _, ends = deliveries(kind, 40, [("inc", "+a", "-silent"), ("inc", "+b", "-silent")])
        lost = [n for n in range(40) if not found[f"d{n}"]]
        doubled = [uid for uid, count in found.items() if count > 1]
        check(f"two inc, {kind.__name__}: nothing is lost, torn or doubled", not lost and not torn and not doubled, f"{lost} {torn} {doubled} {ends}")


# Locks that were left, and who has them.


def dot_locks():
    fresh(drop=delivery("one"))
    write(DROP + ".lock", b"")
    before = time.time()
    done = mh("inc")
    took = time.time() - before
    check("a young lock of another program: a fault", done.returncode == 2, f"{done}")
    check("it is waited for, ten seconds at most", 5 < took < 12, f"{took}")
    check("nothing is taken in then", done.stderr.startswith("mh: fault of files\n") and not numbers("inbox"), f"{done}")
    more = done.stderr.splitlines()[1:]
    check("a second line names the lock", not more or more == ["mh: drop: locked (DROP.lock of another program)"], f"{more}")
    check("the lock of another stays", os.path.exists(DROP + ".lock"))
    os.utime(DROP + ".lock", (time.time() - 400, time.time() - 400))
    done = mh("inc", "-silent")
    check("an old one goes", done.returncode == 0 and numbers("inbox") == [1] and not os.path.exists(DROP + ".lock"), f"{done}")

    fresh(drop=delivery("one"))
    write(DROP + ".lock", b"4194000 mh\n")
    before = time.time()
    done = mh("inc", "-silent")
    check("one of ours of a dead process goes at once", done.returncode == 0 and time.time() - before < 5 and numbers("inbox") == [1], f"{done}")


def kills():
    """`inc` is killed after each of these waits; the next goes on at once, and nothing is lost."""
    for n in range(20):
        fresh(drop=b"".join(delivery(f"k{it}", 200) for it in range(8)))
        run = subprocess.Popen([PROGRAM, "inc", "-silent"], env={"HOME": HOME}, stdout=subprocess.DEVNULL, stderr=subprocess.DEVNULL)
        time.sleep(n * 0.0018)
        run.send_signal(signal.SIGKILL)
        run.wait()
        before = time.time()
        done = mh("inc", "-silent")
        took = time.time() - before
        found, torn = uids()
        good = done.returncode in (0, 1) and took < 5 and not torn and all(found[f"k{it}"] for it in range(8))
        good = good and not os.path.exists(DROP + ".lock") and not os.path.exists(DROP + ".lock.mh")
        if not good:
            check(f"after a kill at {n * 1.8:.1f} ms", False, f"{done} {took} {found} {torn} {os.listdir(HOME)}")
            return
    check("after twenty kills the next inc goes on at once", True)


def odd_drops():
    """Drops whose directory may not be written, and that may only be read."""
    if not IS_ROOT:
        skip("drops with other rights", "the script is not root")
        return
    spool = f"{ROOM}/spool"
    shutil.rmtree(spool, ignore_errors=True)
    os.makedirs(spool)
    fresh()
    write(f"{HOME}/.mh_profile", f"Path: Mail\nMailDrop: {spool}/ann\n".encode())
    write(f"{spool}/ann", delivery("one"))
    own(HOME)
    os.chown(f"{spool}/ann", NOBODY, NOBODY)
    done = as_nobody("inc", "-silent")
    check("a drop in a directory that may not be written", done.returncode == 0 and numbers("inbox") == [1] and not read(f"{spool}/ann"), f"{done}")
    write(f"{spool}/ann", delivery("two"))
    os.chown(f"{spool}/ann", 0, 0)
    os.chmod(f"{spool}/ann", 0o644)
    done = as_nobody("inc", "-file", f"{spool}/ann", "-silent", "-notruncate")
    check("a drop that may only be read is read", done.returncode == 0 and numbers("inbox") == [1, 2], f"{done}")
    done = as_nobody("inc", "-silent")
    check("and is not cut", done.returncode == 2 and read(f"{spool}/ann") == delivery("two"), f"{done}")


# Owners and directories.


def own(path, user=NOBODY):
    for at, _, names in os.walk(path):
        for it in [at] + [f"{at}/{name}" for name in names]:
            os.chown(it, user, user, follow_symlinks=False)


def as_nobody(*words, **more):
    return mh(*words, user=NOBODY, group=NOBODY, extra_groups=[], **more)


def other_owner():
    """A message of another owner in a user's folder, where links to such files are not allowed."""
    if not IS_ROOT:
        skip("a message of another owner", "the script is not root")
        return
    commands = {
        "sortm": ["sortm", "+inbox", "-textfield", "subject"],
        "pack": ["folder", "+inbox", "-pack"],
        "anno": ["anno", "+inbox", "2-3", "-component", "Noted", "-text", "so", "-nodate"],
        "refile": ["refile", "2-3", "+a", "-src", "inbox"],
    }
    for name, words in commands.items():
        fresh({"inbox": ["p4", "p2", "p3", "p1"], "a": []})
        os.rename(f"{MAIL}/inbox/1", f"{MAIL}/inbox/9")
        own(HOME)
        os.chown(f"{MAIL}/inbox/2", 0, 0)
        os.chmod(f"{MAIL}/inbox/2", 0o644)
        done = as_nobody(*words)
        found, torn = uids()
        good = done.returncode == 0 and not torn and all(found[f"p{it}"] == 1 for it in range(1, 5)) and not left("inbox")
        check(f"{name}: a message of another owner that may be read", good, f"{done} {found} {os.listdir(f'{MAIL}/inbox')}")
    for name, words in commands.items():
        fresh({"inbox": ["p4", "p2", "p3", "p1"], "a": []})
        os.rename(f"{MAIL}/inbox/1", f"{MAIL}/inbox/9")
        own(HOME)
        os.chown(f"{MAIL}/inbox/2", 0, 0)
        os.chmod(f"{MAIL}/inbox/2", 0o600)
        done = as_nobody(*words)
        more = done.stderr.splitlines()[1:]
        check(f"{name}: a second line names it", not more or more == ["mh: Mail/inbox/2: Permission denied"], f"{more}")
        then = as_nobody("mark", "+inbox", "all", "-sequence", "x")
        found, _ = uids()
        good = read(f"{MAIL}/inbox/2") == message("p2") and not left("inbox") and then.returncode == 0
        good = good and all(found[f"p{it}"] == 1 for it in range(1, 5))
        check(f"{name}: one that may not be read keeps its number", good, f"{done} {then} {found} {os.listdir(f'{MAIL}/inbox')}")


def above():
    """A directory above the mail directory that may be searched and not read."""
    if not IS_ROOT:
        skip("a directory above that can't be read", "the script is not root")
        return
    fresh({"inbox": ["q1", "q2"]}, delivery("q3"))
    own(HOME)
    os.chown(HOME, 0, 0)
    os.chmod(HOME, 0o711)
    os.chmod(DROP, 0o666)
    for words in (["mark", "+inbox", "1", "-sequence", "x"], ["rmm", "+inbox", "1"], ["folder", "+inbox", "-pack"]):
        done = as_nobody(*words)
        check(f"{words[0]} below a directory that can't be read", done.returncode == 0, f"{done}")
    os.chmod(HOME, 0o755)


def beside():
    """Commands at once in two folders: none finds the mail directory's lock for long."""
    fresh({"a": ["a1", "a2"], "b": ["b1", "b2"]})
    ends = collections.Counter()
    until = time.time() + 4

    def loop(folder):
        while time.time() < until:
            done = mh("scan", f"+{folder}")
            ends[done.returncode, done.stderr] += 1

    threads = [threading.Thread(target=loop, args=(it,)) for it in ("a", "b", "a", "b")]
    for it in threads:
        it.start()
    for it in threads:
        it.join()
    check("commands in two folders", set(ends) == {(0, "")}, f"{ends}")


def listings():
    """Directories named by numbers, and what stands at a name."""
    fresh({"inbox": ["s1", "s2"]})
    done = mh("scan", "+inbox", "-format", "%(msg)")
    check("a folder without directories", done.stdout == "1\n2\n", f"{done}")
    os.mkdir(f"{MAIL}/inbox/3")
    done = mh("scan", "+inbox", "-format", "%(msg)")
    check("a directory named by a number is no message", done.stdout == "1\n2\n", f"{done}")
    done = mh("folder", "+inbox")
    check("nor is it counted", " 2 messages" in done.stdout, f"{done}")
    os.rmdir(f"{MAIL}/inbox/3")
    os.symlink("1", f"{MAIL}/inbox/4")
    done = mh("scan", "+inbox", "-format", "%(msg)")
    check("a link to a message is one", done.stdout == "1\n2\n4\n", f"{done}")
    shutil.rmtree(f"{MAIL}/inbox")
    os.mkfifo(f"{MAIL}/inbox")
    done = mh("scan", "+inbox", timeout=10)
    check("a pipe in the place of a folder", done.returncode in (1, 2), f"{done}")
    os.unlink(f"{MAIL}/inbox")


def linked_files():
    """Sequences and the context are replaced, so that a link there goes."""
    fresh({"inbox": ["t1", "t2"]})
    write(f"{HOME}/kept", b"todo: 1\n")
    os.symlink(f"{HOME}/kept", f"{MAIL}/inbox/.mh_sequences")
    done = mh("mark", "+inbox", "2", "-sequence", "x")
    good = done.returncode == 0 and not os.path.islink(f"{MAIL}/inbox/.mh_sequences")
    check("a link in the place of sequences is replaced", good and read(f"{HOME}/kept") == b"todo: 1\n", f"{done}")


os.makedirs(ROOM, exist_ok=True)
if IS_ROOT:
    os.chmod(ROOM, 0o755)
start = time.time()
for test in (deliverers, two_incs, dot_locks, kills, odd_drops, other_owner, above, beside, listings, linked_files):
    began = time.time()
    test()
    if os.environ.get("TIMES"):
        print(f"{test.__name__}: {time.time() - began:.1f} s")
print(f"{passed} passed, {failed} failed")
