"""What sortm of a folder of messages in random order costs, beside its own durable steps and beside nmh's: sortcost.py PROGRAM ROOM [COUNT]."""
import os
import random
import shutil
import sys
import time

DAY = 86400
START = 1_600_000_000


def fill(home, order):
    """A mailbox whose message n is the order[n-1]-th by its date; each has 2,000 bytes or so."""
    inbox = f"{home}/Mail/inbox"
    os.makedirs(inbox)
    with open(f"{home}/.mh_profile", "w") as f:
        f.write("Path: Mail\n")
    for n, place in enumerate(order, 1):
        date = time.strftime("%a, %d %b %Y %H:%M:%S +0000", time.gmtime(START + place * 60))
        with open(f"{inbox}/{n}", "w") as f:
            f.write(f"From: a@many.example\nSubject: message {place}\nDate: {date}\nX-Place: {place}\n\n" + "a line of the body\n" * 100)
    os.sync()
    return inbox


def places(inbox, count):
    """Which message each number leads to."""
    found = []
    for n in range(1, count + 1):
        with open(f"{inbox}/{n}") as f:
            found.append(int(f.read(300).split("X-Place: ")[1].split("\n")[0]))
    return found


def run(words, home):
    """How long a program takes, and how much memory it held at most."""
    start = time.monotonic()
    pid = os.posix_spawn(words[0], words, {"HOME": home, "LC_ALL": "C.UTF-8"})
    _, status, used = os.wait4(pid, 0)
    return time.monotonic() - start, used.ru_maxrss // 1024, os.waitstatus_to_exitcode(status)


def synced(folder):
    """Makes the names of a directory safe."""
    fd = os.open(folder, os.O_RDONLY)
    os.fsync(fd)
    os.close(fd)


def steps(inbox, order):
    """The same change by nothing but its own steps: each message is read, held aside, given its slot, and let go once that is safe."""
    start = time.monotonic()
    moves = [(n, place) for n, place in enumerate(order, 1) if n != place]
    for n in range(1, len(order) + 1):
        with open(f"{inbox}/{n}", "rb") as f:
            f.read()
    for n, _ in moves:
        os.rename(f"{inbox}/{n}", f"{inbox}/.held_{n}")
    for n, place in sorted(moves, key=lambda it: it[1]):
        os.link(f"{inbox}/.held_{n}", f"{inbox}/{place}")
    synced(inbox)
    for n, _ in moves:
        os.unlink(f"{inbox}/.held_{n}")
    synced(inbox)
    return time.monotonic() - start


def packs(program, home, inbox, count):
    """The first of the messages leaves, so that all others get the number below theirs; and once more."""
    os.remove(f"{inbox}/1")
    took, memory, status = run([program, "folder", "-pack", "+inbox"], home)
    good = status == 0 and places(inbox, count - 1) == list(range(2, count + 1))
    again, _, still = run([program, "folder", "-pack"], home)
    print(f"folder -pack of {count - 1:,} messages that all move: {took:.2f} s, {memory} MB; once more: {again:.2f} s")
    return good and still == 0


def main(program, room, count):
    """Three folders with the same messages, each put in order in its own way."""
    order = list(range(1, count + 1))
    random.Random(20261130).shuffle(order)
    home = f"{room}/ours"
    inbox = fill(home, order)
    took, memory, status = run([program, "sortm", "+inbox"], home)
    good = status == 0 and places(inbox, count) == sorted(order)
    floor = steps(fill(f"{room}/steps", order), order)
    print(f"sortm of {count:,} messages in random order: {took:.2f} s, {memory} MB; its durable steps alone: {floor:.2f} s; {took / floor:.2f} times")
    again, _, still = run([program, "sortm", "+inbox"], home)
    print(f"once more, where they are in order: {again:.2f} s")
    good = good and still == 0
    good = packs(program, home, inbox, count) and good
    for other in ("/usr/bin/mh/sortm", "/usr/local/nmh/bin/sortm"):
        if os.path.exists(other):
            fill(f"{room}/nmh", order)
            print(f"{other} of the same: {run([other, '+inbox'], f'{room}/nmh')[0]:.2f} s")
            shutil.rmtree(f"{room}/nmh")
    shutil.rmtree(home)
    shutil.rmtree(f"{room}/steps")
    return 0 if good else 1


sys.exit(main(sys.argv[1], sys.argv[2], int(sys.argv[3]) if len(sys.argv) > 3 else 20_000))
