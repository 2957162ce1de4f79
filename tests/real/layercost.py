"""What words, names and parts cost, at ten times as many each: layercost.py PROGRAM DIRECTORY [COUNT..]. It prints, and judges nothing.

Processor seconds and the greatest resident size: paths of parts beside as many parts, names of unseen sequences beside as many messages, tests of an
expression whose value no longer counts, and the same tests where each counts."""
import os
import resource
import shutil
import sys

PROGRAM, ROOM = os.path.abspath(sys.argv[1]), os.path.abspath(sys.argv[2])
COUNTS = [int(it) for it in sys.argv[3:]] or [1_000, 10_000]
INBOX = f"{ROOM}/Mail/inbox"


def write(path, text):
    with open(path, "w") as f:
        f.write(text)


def fresh(profile=""):
    """An empty mailbox; words are given by the profile, since a call takes no more than two megabytes of them."""
    shutil.rmtree(ROOM, ignore_errors=True)
    os.makedirs(INBOX)
    write(f"{ROOM}/.mh_profile", f"Path: Mail\n{profile}")
    write(f"{ROOM}/Mail/context", "Current-Folder: inbox\n")


def cost(*words):
    """The processor seconds, the greatest resident size in megabytes, and the status of a call."""
    pid = os.fork()
    if pid == 0:
        null = os.open(os.devnull, os.O_RDWR)
        for it in (0, 1, 2):
            os.dup2(null, it)
        resource.setrlimit(resource.RLIMIT_CPU, (120, 120))
        os.execve(PROGRAM, [PROGRAM, *words], {"HOME": ROOM})
    _, status, used = os.wait4(pid, 0)
    return used.ru_utime + used.ru_stime, used.ru_maxrss // 1024, os.waitstatus_to_exitcode(status)


def parts(count):
    """So many parts, of which each is wanted by a word. A path has numbers up to 9999, so they stand in parts of a thousand."""
    groups = [range(1, min(1000, count - begin) + 1) for begin in range(0, count, 1000)]
    inner = ["--a\nContent-Type: multipart/mixed; boundary=b\n\n" + "--b\n\nx\n" * len(it) + "--b--\n" for it in groups]
    words = " ".join(f"-part {g}.{n}" for g, it in enumerate(groups, 1) for n in it)
    fresh(f"mhlist: {words}\n")
    write(f"{INBOX}/1", "Content-Type: multipart/mixed; boundary=a\n\n" + "".join(inner) + "--a--\n")
    return cost("mhlist", "1")


def unseen(count):
    """So many messages, and so many names of unseen sequences."""
    names = [f"s{n}" for n in range(count)]
    fresh("Unseen-Sequence: " + " ".join(names) + "\n")
    for n in range(1, count + 1):
        write(f"{INBOX}/{n}", f"Subject: {n}\n\n")
    write(f"{INBOX}/.mh_sequences", "".join(f"{name}: {n}\n" for n, name in enumerate(names, 1)))
    return cost("scan", "all")


def tests(count, first):
    """So many tests, of which the first says whether the others count."""
    fresh(f"pick: -subject {first} " + "-and -search zzzz " * count + "\n")
    for n in range(1, 101):
        write(f"{INBOX}/{n}", "Subject: lunch\n\n" + "a line of the body\n" * 20)
    return cost("pick", "all")


for name, made in [("paths of parts", parts), ("names of unseen sequences", unseen), ("tests that do not count", lambda n: tests(n, "dinner")),
                   ("tests of which the second fails", lambda n: tests(n, "lunch"))]:
    for count in COUNTS:
        seconds, size, status = made(count)
        print(f"{count:,} {name}: {seconds:.3f} s, {size} MB" + (f" (status {status})" if status not in (0, 1) else ""), flush=True)
shutil.rmtree(ROOM, ignore_errors=True)
