"""What the edge costs beside nmh: edge_cost.py PROGRAM DIRECTORY [COUNT..]. It prints, and judges nothing.

Processor seconds of commands on folders of so many names, the greatest resident size a name, and the system calls of `refile` a message."""
import os
import re
import shutil
import subprocess
import sys

PROGRAM, ROOM = os.path.abspath(sys.argv[1]), os.path.abspath(sys.argv[2])
COUNTS = [int(it) for it in sys.argv[3:]] or [10_000, 100_000]
MAIL = f"{ROOM}/Mail"
NMH = next((it for it in ("/usr/bin/mh", "/usr/local/nmh/bin") if os.path.isdir(it)), None)
COMMANDS = {
    "folder": ["folder", "+inbox"],
    "mark": ["mark", "+inbox", "1", "-sequence", "x"],
    "scan last:5": ["scan", "+inbox", "last:5"],
}


def fresh(count):
    shutil.rmtree(ROOM, ignore_errors=True)
    os.makedirs(f"{MAIL}/inbox")
    os.makedirs(f"{MAIL}/other")
    with open(f"{ROOM}/.mh_profile", "w") as f:
        f.write("Path: Mail\n")
    for n in range(1, count + 1):
        with open(f"{MAIL}/inbox/{n}", "w") as f:
            f.write(f"From: u@many.example\nSubject: message {n}\nDate: Tue, 02 Jun 2026 10:00:00 +0000\n\nbody\n")


def cost(words):
    """The least processor seconds of five runs, and the greatest resident size in bytes; that of this script is its least."""
    best, size = None, 0
    for _ in range(5):
        pid = os.fork()
        if pid == 0:
            null = os.open(os.devnull, os.O_RDWR)
            for it in (0, 1, 2):
                os.dup2(null, it)
            os.execve(words[0], words, {"HOME": ROOM})
        _, status, used = os.wait4(pid, 0)
        if status:
            return None, None
        seconds = used.ru_utime + used.ru_stime
        best = seconds if best is None else min(best, seconds)
        size = max(size, used.ru_maxrss * 1024)
    return best, size


def calls(words):
    """How many system calls the words make."""
    trace = f"{ROOM}/trace"
    subprocess.run(["strace", "-f", "-c", "-o", trace, *words], env={"HOME": ROOM}, capture_output=True)
    with open(trace) as f:
        total = re.search(r"^\s*100\.00.*?(\d+)(?:\s+\d+)?\s+total$", f.read(), re.M)
    return int(total.group(1)) if total else 0


def beside(count):
    fresh(count)
    for name, words in COMMANDS.items():
        ours, size = cost([PROGRAM, *words])
        if ours is None:
            print(f"{count:,} names, {name}: not done")
            continue
        line = f"{count:,} names, {name}: {ours:.3f} s, {size / count:.0f} bytes a name"
        if NMH:
            theirs, _ = cost([f"{NMH}/{words[0]}", *words[1:]])
            line += f"; nmh {theirs:.3f} s, {ours / max(theirs, 0.001):.2f} times" if theirs is not None else "; nmh: not done"
        print(line, flush=True)


def with_subdirectory(count):
    """The same with a subdirectory that has a number for its name, which is no message."""
    os.mkdir(f"{MAIL}/inbox/{count + 1}")
    said = subprocess.run([PROGRAM, "folder", "+inbox"], env={"HOME": ROOM}, capture_output=True, text=True).stdout
    ours, _ = cost([PROGRAM, "folder", "+inbox"])
    told = "is not counted" if f"has {count} messages (1-{count})" in said else f"IS COUNTED: {said.strip()}"
    print(f"{count:,} names and a subdirectory named {count + 1}, which {told}: folder {ours:.3f} s", flush=True)


def refile_calls():
    made = {}
    for count in (10, 110):
        fresh(count)
        made[count] = calls([PROGRAM, "refile", "+other", "-src", "inbox", "all"])
    print(f"refile: {(made[110] - made[10]) / 100:.1f} system calls a message")


for count in COUNTS:
    beside(count)
    with_subdirectory(count)
if shutil.which("strace"):
    refile_calls()
shutil.rmtree(ROOM, ignore_errors=True)
