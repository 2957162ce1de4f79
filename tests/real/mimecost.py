"""What parts of large messages cost: mimecost.py PROGRAM ROOM [COUNT]. mhlist beside cat, mhstore beside base64 -d, and many small parts beside
the durable steps of their files alone. It fails only where an output is wrong."""
import base64
import os
import random
import shutil
import subprocess
import sys
import time

PROGRAM, ROOM = sys.argv[1:3]
COUNT = int(sys.argv[3]) if len(sys.argv) > 3 else 20_000
HOME, WORK = f"{ROOM}/home", f"{ROOM}/work"
MESSAGE = f"{HOME}/Mail/inbox/1"


def fill(parts):
    """A mailbox of one message with these parts."""
    os.makedirs(os.path.dirname(MESSAGE), exist_ok=True)
    shutil.rmtree(WORK, ignore_errors=True)
    os.makedirs(WORK)
    with open(MESSAGE, "wb") as f:
        f.write(b"Content-Type: multipart/mixed; boundary=x\n\n" + b"".join(b"--x\n" + it + b"\n" for it in parts) + b"--x--\n")
    os.sync()
    return os.path.getsize(MESSAGE)


def run(*words):
    """How long a program takes, and what it prints."""
    with open(f"{ROOM}/out", "wb") as out:
        start = time.monotonic()
        status = subprocess.run(words, env={"HOME": HOME}, cwd=WORK, stdout=out).returncode
        took = time.monotonic() - start
    with open(f"{ROOM}/out", "rb") as out:
        return took, out.read() if status == 0 else b""


def best(act, times=5):
    """The shortest of some runs, and what the last one gave."""
    runs = [act() for _ in range(times)]
    return min(it for it, _ in runs), runs[-1][1]


def synced(path):
    """Makes a file or the names of a directory safe."""
    fd = os.open(path, os.O_RDONLY)
    os.fsync(fd)
    os.close(fd)


def read():
    """A message, read by another program."""
    start = time.monotonic()
    subprocess.run(["cat", MESSAGE], stdout=subprocess.DEVNULL, check=True)
    return time.monotonic() - start, b""


def listed():
    """A message of 60 MB and 1,000 parts, listed and read."""
    line = b"a line of the body that is as long as many lines of mail are\n"
    body = b"\n" + line * (60_000 // len(line))
    size = fill([body] * 1_000)
    took, rows = best(lambda: run(PROGRAM, "mhlist", "+inbox", "1"))
    cat, _ = best(read)
    print(f"mhlist of a message of {size:,} bytes with 1,000 parts: {took:.3f} s; cat of its file: {cat:.3f} s; {took / cat:.2f} times")
    rows = rows.decode().splitlines()
    return len(rows) == 1_002 and all(row.endswith(f" {len(body) - 1}") for row in rows[2:]) and rows[-1].split()[1] == "1000"


def decoded():
    """A part of 40 MB of base64, stored, and decoded by another program into a file that is made safe too."""
    content = random.Random(5).randbytes(30_000_000)
    text = base64.encodebytes(content)
    fill([b"\na", b"Content-Type: application/octet-stream\nContent-Transfer-Encoding: base64\n\n" + text])
    with open(f"{ROOM}/text", "wb") as f:
        f.write(text)

    def other():
        start = time.monotonic()
        with open(f"{ROOM}/text", "rb") as text, open(f"{WORK}/other", "wb") as out:
            subprocess.run(["base64", "-d"], stdin=text, stdout=out, check=True)
        synced(f"{WORK}/other")
        return time.monotonic() - start, b""

    took, told = best(lambda: run(PROGRAM, "mhstore", "+inbox", "1", "-part", "2", "-clobber", "always"))
    floor, _ = best(other)
    print(f"mhstore of a part of {len(text):,} bytes of base64: {took:.3f} s; base64 -d into a file that is made safe: {floor:.3f} s; {took / floor:.2f} times")
    with open(f"{WORK}/1.2.octet-stream", "rb") as f:
        return told == b"storing message 1 part 2 as file 1.2.octet-stream\n" and f.read() == content


def steps(bodies):
    """The files of these bodies by nothing but the steps of each: a new file, safe, its name by a link, and the directory safe."""
    shutil.rmtree(WORK)
    os.makedirs(WORK)
    os.sync()
    start = time.monotonic()
    for n, body in enumerate(bodies, 1):
        temporary = f"{WORK}/.temporary_{n}"
        fd = os.open(temporary, os.O_WRONLY | os.O_CREAT | os.O_EXCL, 0o600)
        os.write(fd, body)
        os.close(fd)
        synced(temporary)
        os.link(temporary, f"{WORK}/1.{n}.plain")
        os.unlink(temporary)
        synced(WORK)
    return time.monotonic() - start


def stored():
    """Many small parts, each a file of its own."""
    bodies = [b"part %d" % n for n in range(1, COUNT + 1)]
    fill([b"\n" + body for body in bodies])
    took, told = run(PROGRAM, "mhstore", "+inbox", "1")
    good = len(told.splitlines()) == len(os.listdir(WORK)) == COUNT
    for n, body in enumerate(bodies, 1):
        with open(f"{WORK}/1.{n}.plain", "rb") as f:
            good = good and f.read() == body
    floor = steps(bodies)
    print(f"mhstore of {COUNT:,} small parts: {took:.2f} s; their durable steps alone: {floor:.2f} s; {took / floor:.2f} times")
    return good


results = [listed(), decoded(), stored()]
shutil.rmtree(ROOM)
sys.exit(0 if all(results) else 1)
