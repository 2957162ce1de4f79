"""Tests of `refile` on real directories: refile.py PROGRAM DIRECTORY deaths or rivals. The last line is 'N passed, M failed'."""
import os
import random
import shutil
import subprocess
import sys
import threading
import time

PROGRAM, HOME, WHAT = sys.argv[1:]
passed = failed = 0


def check(name, good):
    global passed, failed
    if good:
        passed += 1
    else:
        failed += 1
        print(f"failed: {name}")


def message(n):
    return f"Subject: message {n}\n\n" + f"a line of message {n}\n" * 40


def fill(folder, numbers):
    os.makedirs(f"{HOME}/Mail/{folder}", exist_ok=True)
    for n in numbers:
        with open(f"{HOME}/Mail/{folder}/{n}", "w") as f:
            f.write(message(n))


def mh(*words):
    return subprocess.run([PROGRAM, *words], env={"HOME": HOME}, capture_output=True, text=True)


def stored(folder):
    """The texts of the messages that stand at numbers there."""
    at = f"{HOME}/Mail/{folder}"
    found = []
    for name in os.listdir(at) if os.path.isdir(at) else []:
        if name.isdigit():
            with open(f"{at}/{name}") as f:
                found.append(f.read())
    return found


def others(folder):
    """Names that no run should leave for good."""
    at = f"{HOME}/Mail/{folder}"
    return [it for it in os.listdir(at) if it.startswith((".mh_held", ".mh_temp"))] if os.path.isdir(at) else []


def deaths(times=50, count=30):
    """A process that is killed at a random moment; then a run that begins both folders."""
    random.seed(2)
    fill("inbox", range(1, count + 1))
    start = time.monotonic()
    mh("refile", "+a", "1-30", "-src", "inbox")
    whole = time.monotonic() - start
    midst = 0
    for k in range(times):
        shutil.rmtree(HOME, ignore_errors=True)
        fill("inbox", range(1, count + 1))
        fill("a", [])
        process = subprocess.Popen([PROGRAM, "refile", "+a", "1-30", "-src", "inbox"], env={"HOME": HOME}, stderr=subprocess.DEVNULL)
        time.sleep(random.uniform(0, whole))
        process.kill()
        process.wait()
        good = all(mh("mark", f"+{it}", "all", "-sequence", "x").returncode in (0, 1) for it in ("inbox", "a"))
        here, there = stored("inbox"), stored("a")
        midst += 0 < len(there) < count
        good &= set(here) | set(there) == {message(n) for n in range(1, count + 1)}
        good &= len(set(here)) == len(here) and len(set(there)) == len(there) and len(here) + len(there) <= count + 1
        good &= not others("inbox") and not others("a")
        check(f"death {k + 1}: each message is there, whole", good)
    print(f"refile of {count} messages was killed {times} times, {midst} times after some and before all were stored")


def rivals(seconds=10, count=20):
    """Two processes that refile into each other's folders."""
    shutil.rmtree(HOME, ignore_errors=True)
    fill("a", range(1, count + 1))
    fill("b", range(count + 1, 2 * count + 1))
    end = time.monotonic() + seconds
    runs = {0: 0, 1: 0, 3: 0, 4: 0}

    def push(source, target):
        while time.monotonic() < end:
            status = mh("refile", f"+{target}", "first", "-src", source).returncode
            runs[status] = runs.get(status, 0) + 1

    both = [threading.Thread(target=push, args=it) for it in (("a", "b"), ("b", "a"))]
    for it in both:
        it.start()
    for it in both:
        it.join()
    for it in ("a", "b"):
        mh("mark", f"+{it}", "all", "-sequence", "x")
    found = stored("a") + stored("b")
    check("two that refile into each other's folders lose nothing", sorted(found) == sorted(message(n) for n in range(1, 2 * count + 1)))
    check("nor leave anything aside", not others("a") and not others("b"))
    check("none of them fails", set(it for it, n in runs.items() if n) <= {0, 1, 3, 4} and runs[0] > 0)
    print(f"in {seconds} s two processes refiled {runs[0]} messages into each other's folders, and were told {runs[3]} times that one was locked")


{"deaths": deaths, "rivals": rivals}[WHAT]()
shutil.rmtree(HOME, ignore_errors=True)
print(f"{passed} passed, {failed} failed")
