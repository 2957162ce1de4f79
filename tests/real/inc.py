"""Tests of `inc` on real directories: inc.py PROGRAM DIRECTORY calls, delivery, deaths or cost. The last line is 'N passed, M failed'."""
import fcntl
import os
import random
import re
import resource
import shutil
import signal
import subprocess
import sys
import tempfile
import time

PROGRAM, HOME, WHAT = sys.argv[1:]
INBOX = f"{HOME}/Mail/inbox"
DROP = f"{HOME}/drop"
passed = failed = 0


def check(name, good):
    global passed, failed
    if good:
        passed += 1
    else:
        failed += 1
        print(f"failed: {name}")


def message(n, size=0):
    text = f"From: user{n % 10}@many.example\nTo: bob@b.example\nSubject: message {n}\nDate: Tue, 02 Jun 2026 10:00:00 +0000\n\n"
    line = f"a line of message {n}\n"
    return text + line * max(1, (size - len(text)) // len(line))


def fill(count, size=0):
    """A drop of messages 1 to count, and an empty mailbox."""
    shutil.rmtree(HOME, ignore_errors=True)
    os.makedirs(INBOX)
    with open(f"{HOME}/.mh_profile", "w") as f:
        f.write("Path: Mail\nMailDrop: drop\nUnseen-Sequence: unseen\n")
    with open(DROP, "w") as f:
        for n in range(1, count + 1):
            f.write(f"From user{n % 10}@many.example Tue Jun  2 10:00:00 2026\n{message(n, size)}\n")


def inc(*words, **more):
    return subprocess.run([*words, PROGRAM, "inc"], env={"HOME": HOME}, capture_output=True, text=True, **more)


def stored():
    """Each number with its text."""
    found = {}
    for name in os.listdir(INBOX):
        if name.isdigit():
            with open(f"{INBOX}/{name}") as f:
                found[int(name)] = f.read()
    return found


def told(out):
    """The numbers and subjects of the lines that were written whole."""
    return re.findall(r"^ *(\d+)[ +] .{25}(message \d+)<<.*$", out, re.M)


def calls():
    """The order of the system's calls: no line before its message's folder was synced, and the drop is cut last."""
    if not shutil.which("strace"):
        print("strace is not installed: the order of calls is not looked at")
        return
    fill(3)
    trace = f"{HOME}/trace"
    ran = inc("strace", "-f", "-y", "-o", trace, "-e", "trace=write,fsync,fdatasync,link,linkat,ftruncate,truncate,unlink,unlinkat")
    check("inc under strace", ran.returncode == 0 and len(told(ran.stdout)) == 3)
    with open(trace) as f:
        lines = [it for it in f if "= -1" not in it and "+++" not in it]
    at = lambda words: [k for k, it in enumerate(lines) if all(word in it for word in words)]
    links = [at(["link(", f"/{n}\")"]) for n in (1, 2, 3)]
    syncs = [k for k in at(["sync("]) if f"<{os.path.realpath(INBOX)}>" in lines[k]]
    writes = [k for k in at(["write(1<"]) if "@many" in lines[k]]
    cuts = at(["truncate"])
    every_sync = at(["sync("])
    check("a link for each message", all(len(it) == 1 for it in links))
    check("a line for each message", len(writes) == 3)
    if failed:
        return
    for n in range(3):
        check(f"line {n + 1} behind the sync of its folder", any(links[n][0] < k < writes[n] for k in syncs))
        file_syncs = [k for k in every_sync if ".mh_temp_" in lines[k] and k < links[n][0]]
        check(f"message {n + 1} was synced before it was linked", len(file_syncs) >= n + 1)
    drop_cuts = [k for k in cuts if "drop" in lines[k]]
    check("the drop is cut once", len(drop_cuts) == 1)
    others = [k for k in every_sync if "drop" not in lines[k]]
    check("after all other syncs and all lines", bool(drop_cuts) and all(k < drop_cuts[0] for k in others + writes))


def delivery():
    """A message that is delivered in two writes, under the drop's lock, while inc runs: it comes whole."""
    fill(1)
    with open(DROP, "ab") as f:
        fcntl.flock(f, fcntl.LOCK_EX)
        text = ("From a@b Tue Jun  2 10:00:00 2026\n" + message(2) + "\n").encode()
        f.write(text[:60])
        f.flush()
        run = subprocess.Popen([PROGRAM, "inc"], env={"HOME": HOME}, stdout=subprocess.PIPE, stderr=subprocess.PIPE)
        time.sleep(0.4)
        check("inc waits for a delivery", run.poll() is None)
        f.write(text[60:])
    out, err = run.communicate(timeout=20)
    check("inc beside a delivery", run.returncode == 0 and err == b"")
    check("both messages are whole", stored() == {1: message(1), 2: message(2)})
    check("the drop is empty", os.path.getsize(DROP) == 0)


def deaths(times=50, count=50):
    """A process that is killed at a random moment, and then the command again."""
    random.seed(1)
    fill(count)
    start = time.monotonic()
    undisturbed = inc()
    whole = time.monotonic() - start
    check("a line for each message of an undisturbed inc", len(told(undisturbed.stdout)) == count)
    midst = 0
    for k in range(times):
        fill(count)
        process = subprocess.Popen([PROGRAM, "inc"], env={"HOME": HOME}, stdout=subprocess.PIPE, stderr=subprocess.PIPE, text=True)
        time.sleep(random.uniform(0, whole))
        process.kill()
        out = process.communicate()[0]
        first = stored()
        midst += 0 < len(first) < count
        lines = [it for it in told(out)]
        good = all(f"Subject: {subject}\n" in first.get(int(n), "") for n, subject in lines)
        again = inc()
        good &= again.returncode == 0 or again.stderr == "mh: no mail to incorporate\n"
        last = stored()
        good &= all(last.get(n) == text for n, text in first.items())
        good &= {message(n) for n in range(1, count + 1)} == set(last.values())
        good &= os.path.getsize(DROP) == 0
        good &= not [it for it in os.listdir(INBOX) if it.startswith(".mh_temp")]
        check(f"death {k + 1}: each message is there, and what was told", good)
    print(f"inc of {count} messages was killed {times} times, {midst} times after some and before all were stored")


FLOOR = r"""
#include <fcntl.h>
#include <stdio.h>
#include <stdlib.h>
#include <string.h>
#include <unistd.h>
int main(int argc, char **argv) {
    static char text[2500];
    int folder = open(argv[1], O_RDONLY | O_DIRECTORY), size = atoi(argv[3]), n;
    memset(text, 'x', sizeof text);
    for (n = 1; n <= atoi(argv[2]); n++) {
        char name[32];
        int file = openat(folder, ".temp", O_WRONLY | O_CREAT | O_EXCL, 0600);
        if (file < 0 || write(file, text, size) != size || fsync(file)) return 1;
        close(file);
        sprintf(name, "%d", n);
        if (linkat(folder, ".temp", folder, name, 0) || unlinkat(folder, ".temp", 0) || fsync(folder)) return 1;
    }
    return 0;
}
"""


class Turns:
    """A command that is run in turns with another, so that both meet the same disk: the seconds that it had, and what it used."""

    def __init__(self, *words):
        self.words, self.took, self.pid, self.usage, self.status = words, 0.0, None, None, None

    def turn(self, seconds):
        """Lets it go on for so long, or to its end."""
        begin = time.monotonic()
        if self.pid is None:
            self.pid = subprocess.Popen(self.words, env={"HOME": HOME}, stdout=subprocess.DEVNULL).pid
        else:
            os.kill(self.pid, signal.SIGCONT)
        while self.usage is None and time.monotonic() < begin + seconds:
            time.sleep(0.002)
            ended, status, usage = os.wait4(self.pid, os.WNOHANG)
            if ended:
                self.status, self.usage = os.waitstatus_to_exitcode(status), usage
        if self.usage is None:
            os.kill(self.pid, signal.SIGSTOP)
        self.took += time.monotonic() - begin


def in_turns(*commands, seconds=0.3):
    """Runs them all to their ends."""
    while any(it.usage is None for it in commands):
        for it in commands:
            if it.usage is None:
                it.turn(seconds)


def floor_program(where):
    """The durable steps alone, compiled; none where there is no compiler."""
    if not shutil.which("gcc"):
        return None
    with open(f"{where}/floor.c", "w") as f:
        f.write(FLOOR)
    subprocess.run(["gcc", "-O2", "-o", f"{where}/floor", f"{where}/floor.c"], check=True)
    return f"{where}/floor"


def cost():
    """The time of inc beside that of the same durable steps in C, in turns, and beside nmh's, where these are there."""
    base = os.environ.get("MH_COST")
    count = int(base) if base else 2000
    size = min(2500, 200_000_000 // count)
    fill(count, size)
    os.makedirs(f"{HOME}/floor")
    run = Turns(PROGRAM, "inc")
    with tempfile.TemporaryDirectory() as where:
        program = floor_program(where)
        floor = Turns(program, f"{HOME}/floor", str(count), str(size)) if program else None
        in_turns(*(it for it in (run, floor) if it))
    check(f"{count:,} messages", run.status == 0 and len(stored()) == count)
    print(f"inc of {count:,} messages of {size:,} bytes: {run.took:.2f} s, of which {run.usage.ru_utime:.2f} s its own; at most {run.usage.ru_maxrss // 1024} MB")
    if floor:
        check("the durable steps", floor.status == 0)
        print(f"the same durable steps alone, in turns with it: {floor.took:.2f} s; {run.took / floor.took:.2f} times")
    for program in ("/usr/bin/mh/inc", "/usr/local/nmh/bin/inc"):
        if os.path.exists(program):
            fill(count, size)
            start = time.monotonic()
            subprocess.run([program, "-file", DROP, "-silent"], env={"HOME": HOME})
            print(f"{program} of the same drop: {time.monotonic() - start:.2f} s")
    shutil.rmtree(HOME)


{"calls": calls, "delivery": delivery, "deaths": deaths, "cost": cost}[WHAT]()
print(f"{passed} passed, {failed} failed")
