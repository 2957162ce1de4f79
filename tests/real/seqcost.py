"""What commands cost beside many sequences: seqcost.py PROGRAM ROOM [COUNT]. It fails only where what is left of the sequences is wrong."""
import os
import resource
import shutil
import sys
import time

PROGRAM, ROOM = sys.argv[1:3]
MANY = int(sys.argv[3]) if len(sys.argv) > 3 else 100_000
INBOX = f"{ROOM}/Mail/inbox"
MARKS = f"{INBOX}/.mh_sequences"
DAY = 86400
START = 1_600_000_000


def fill(count):
    """A mailbox with so many messages, of which each is older than the one before."""
    shutil.rmtree(ROOM, ignore_errors=True)
    os.makedirs(INBOX)
    with open(f"{ROOM}/.mh_profile", "w") as f:
        f.write("Path: Mail\n")
    for n in range(1, count + 1):
        date = time.strftime("%a, %d %b %Y %H:%M:%S +0000", time.gmtime(START - n * DAY))
        with open(f"{INBOX}/{n}", "w") as f:
            f.write(f"From: a@many.example\nSubject: message {n}\nDate: {date}\n\nA line.\n")
    os.sync()


def names(count):
    """So many names, of which each stands before the next."""
    return [f"s{n:06}" for n in range(count)]


def mark(lists):
    """Gives a folder these sequences."""
    with open(MARKS, "w") as f:
        f.writelines(f"{name}: {numbers}\n" for name, numbers in lists.items())


def marked():
    """The sequences that a folder has, but for the current message."""
    with open(MARKS) as f:
        lines = dict(it.rstrip("\n").split(": ") for it in f)
    lines.pop("cur", None)
    return lines


def run(*words):
    """How long a command takes, and whether it ends well."""
    start = time.monotonic()
    pid = os.posix_spawn(PROGRAM, [PROGRAM, *words], {"HOME": ROOM, "LC_ALL": "C.UTF-8"}, file_actions=[(os.POSIX_SPAWN_OPEN, 1, "/dev/null", os.O_WRONLY, 0)])
    _, status = os.waitpid(pid, 0)
    return time.monotonic() - start, os.waitstatus_to_exitcode(status) == 0


def told(what, took, good):
    """Prints what a command took; whether it did what it should."""
    print(f"{what}: {took:.2f} s{'' if good else ', and WRONG'}")
    return good


def falling(count):
    """One call that marks under so many names, each before the one in front of it, and one that takes all of them away."""
    fill(10)
    words = [it for name in reversed(names(count)) for it in ("-sequence", name)]
    took, well = run("mark", *words, "3")
    good = told(f"mark with {count:,} falling names", took, well and marked() == {name: "3" for name in names(count)})
    took, well = run("mark", "-delete", *words, "all")
    return told(f"mark -delete of {count:,} falling names", took, well and not marked()) and good


def sorted_beside(count):
    """Ten messages put in order beside so many sequences."""
    fill(10)
    mark({name: n % 10 + 1 for n, name in enumerate(names(count))})
    took, well = run("sortm", "+inbox")
    return told(f"sortm of 10 messages beside {count:,} sequences", took, well and marked() == {name: f"{10 - n % 10}" for n, name in enumerate(names(count))})


def packed_beside(count):
    """So many messages that all get the number below theirs, beside as many sequences of one message each."""
    fill(count + 1)
    os.remove(f"{INBOX}/1")
    mark({name: n + 2 for n, name in enumerate(names(count))})
    took, well = run("folder", "-pack", "+inbox")
    return told(f"folder -pack of {count:,} messages beside {count:,} sequences", took, well and marked() == {name: f"{n + 1}" for n, name in enumerate(names(count))})


def turned_beside(count):
    """So many messages put into the other order, beside as many sequences of one message each."""
    fill(count)
    mark({name: n + 1 for n, name in enumerate(names(count))})
    took, well = run("sortm", "+inbox")
    return told(f"sortm of {count:,} messages beside {count:,} sequences", took, well and marked() == {name: f"{count - n}" for n, name in enumerate(names(count))})


def main():
    """Each command beside some sequences and beside many."""
    _, most = resource.getrlimit(resource.RLIMIT_STACK)
    resource.setrlimit(resource.RLIMIT_STACK, (min(most, 1 << 26) if most != resource.RLIM_INFINITY else 1 << 26, most))
    good = [act(count) for act in (falling, sorted_beside) for count in (MANY // 10, MANY)]
    good += [act(MANY // 5) for act in (packed_beside, turned_beside)]
    shutil.rmtree(ROOM)
    return 0 if all(good) else 1


sys.exit(main())
