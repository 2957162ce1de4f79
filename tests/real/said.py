"""Tests of what `main` says around the top call: said.py PROGRAM DIRECTORY. The last line is 'N passed, M failed'.

A refused `pick`, words of the profile, pipes that close, help where people look, the setting, and waiting for a lock."""
import fcntl
import os
import re
import shutil
import subprocess
import sys
import threading
import time
from pathlib import Path

PROGRAM, ROOM = sys.argv[1], Path(sys.argv[2])
TOP = Path(__file__).resolve().parent.parent.parent
passed = failed = 0


def check(name, good, more=""):
    global passed, failed
    if good:
        passed += 1
    else:
        failed += 1
        print(f"failed: {name} {more}")


def mailbox(name):
    home = ROOM / name
    shutil.copytree(TOP / "crates/mh/data", home)
    return home


def run(home, *words, program=PROGRAM, **more):
    given = {"HOME": str(home), **more.pop("env", {})}
    return subprocess.run([program, *words], cwd=ROOM, env=given, capture_output=True, **more)


def row(name, home, wanted, *words, **more):
    """The status, the output and the error output of a call."""
    ran = run(home, *words, **more)
    got = (ran.returncode, ran.stdout.decode(), ran.stderr.decode(errors="replace"))
    check(name, got == wanted, f"{got} for {wanted}")


def refused_picks():
    """Where `pick` names no message and would list some, it writes 0."""
    home = mailbox("picks")
    switches = 'mh: "mh help pick" tells its switches\n'
    row("a date that is none", home, (1, "0\n", "mh: bad date: x\n"), "pick", "-after", "x")
    row("a switch that is none", home, (1, "0\n", f"mh: unknown switch: -nolits\n{switches}"), "pick", "-nolits")
    row("a sequence, and a date that is none", home, (1, "", "mh: bad date: x\n"), "pick", "-sequence", "q", "-after", "x")
    row("a sequence that is listed, and a date that is none", home, (1, "0\n", "mh: bad date: x\n"), "pick", "-sequence", "q", "-list", "-after", "x")
    row("no list", home, (1, "", "mh: bad date: x\n"), "pick", "-nolist", "-after", "x")
    row("a list after no list", home, (1, "0\n", "mh: bad date: x\n"), "pick", "-nolist", "-list", "-after", "x")
    row("a folder that is not there", home, (1, "0\n", "mh: no such folder: +none\n"), "pick", "+none")
    row("no match, written by the call", home, (1, "0\n", "mh: no messages match\n"), "pick", "-subject", "zzz")
    (home / ".mh_profile").write_text("pick: -nolist\n")
    row("no list, by the profile", home, (1, "", "mh: bad date: x\n"), "pick", "-after", "x")
    (home / ".mh_profile").unlink()
    row("words that are no text", home, (2, "0\n", "mh: word 3 is no UTF-8 text\n"), "pick", "-subject", b"\xff")
    row("no seconds", home, (1, "0\n", "mh: bad value: --wait\n"), "--wait", "-1", "pick")
    row("by its own name", home, (1, "0\n", "mh: bad date: x\n"), "-after", "x", program=f"{ROOM}/names/pick")
    with locked(home / "Mail/inbox"):
        row("a folder that is locked", home, (3, "", "mh: +inbox is locked\n"), "pick", "-sequence", "q")
        row("a folder that is locked, and a list", home, (3, "0\n", "mh: +inbox is locked\n"), "pick", "-sequence", "q", "-list")
    with open("/dev/full", "w") as full:
        ran = subprocess.run([PROGRAM, "pick", "+inbox"], env={"HOME": str(home)}, stdout=full, stderr=subprocess.PIPE)
    check("an output that is full", (ran.returncode, ran.stderr) == (2, b"mh: fault of output\n"), ran)
    run(home, "folder", "2")
    script = f'"{PROGRAM}" rmm $("{PROGRAM}" pick -after "last fortnight")'
    ran = subprocess.run(["sh", "-c", script], env={"HOME": str(home)}, capture_output=True)
    check("rmm of a refused pick removes nothing", ran.returncode == 1 and (home / "Mail/inbox/2").exists(), ran)
    script = f'm=$("{PROGRAM}" pick -after "last fortnight") && "{PROGRAM}" rmm $m'
    ran = subprocess.run(["sh", "-c", script], env={"HOME": str(home)}, capture_output=True)
    check("rmm behind a refused pick is not called", ran.stderr == b"mh: bad date: last fortnight\n", ran)


def profiles():
    """A wrong word of the profile's is called that."""
    home = mailbox("profile")
    (home / ".mh_profile").write_text("scan: -header\ninc: -width\nmark: -list\n")
    row("a switch of the profile's", home, (1, "", 'mh: unknown switch: -header\nmh: the profile\'s entry "scan" has this word\n'), "scan", "+inbox")
    row("a value that the profile lacks", home, (1, "", 'mh: missing value: -width\nmh: the profile\'s entry "inc" has this word\n'), "inc")
    row("a word of the call", home, (1, "", 'mh: unknown switch: -x\nmh: "mh help mark" tells its switches\n'), "mark", "-x")


def closed(home, *words):
    """The status and the error output of a call whose reader is gone."""
    read, write = os.pipe()
    os.close(read)
    ran = subprocess.run([PROGRAM, *words], env={"HOME": str(home)}, cwd=ROOM, stdout=write, stderr=subprocess.PIPE)
    os.close(write)
    return ran.returncode, ran.stderr


def pipes():
    """Commands that only look are silent where nobody reads them."""
    home = mailbox("pipes")
    run(home, "folder", "+inbox", "1")
    for words in ("scan", "mhlist all", "pick", "mark", "folder", "mark -list -sequence q", "folder -nopack", "help", "help scan"):
        got = closed(home, *words.split())
        check(f"a closed pipe of {words}", got == (2, b""), got)
    (home / "drop").write_text("From x Tue Jun  2 12:00:00 2026\nSubject: a\n\n")
    for words in (f"inc -file {home}/drop", "mark -add -list -sequence q 1", "pick -list -sequence q", "folder 1", "folder -pack", "mhstore 1"):
        got = closed(home, *words.split())
        check(f"a closed pipe of {words}", got == (2, b"mh: fault of output\n"), got)
    ran = subprocess.run(["sh", "-c", f'"{PROGRAM}" scan +inbox | head -n 1'], env={"HOME": str(home), "PATH": os.environ["PATH"]}, capture_output=True)
    check("scan | head", ran.stderr == b"" and ran.stdout.count(b"\n") == 1, ran)


def helped():
    """Help stands where people look for it."""
    home = mailbox("helped")
    first = run(home, "help").stdout.decode().split("Your mail directory")[0].rstrip("\n") + "\n"
    row("no command", home, (1, "", f"mh: no command\n{first}"))
    row("no page", home, (1, "", 'mh: no help on glue; "mh help" lists the commands\n'), "help", "glue")
    row("a word that no terminal may be told", home, (1, "", 'mh: no help on ?[1m; "mh help" lists the commands\n'), "help", "\x1b[1m")
    row("no such command", home, (1, "", 'mh: unknown command: glue\nmh: "mh help" lists the commands\n'), "glue")
    row("a command's page", home, (0, run(home, "help", "scan").stdout.decode(), ""), "scan", "--help")
    row("a page by its own name", home, (0, run(home, "help", "pick").stdout.decode(), ""), "--help", program=f"{ROOM}/names/pick")
    row("--help of another word", home, (1, "", 'mh: unknown command: glue\nmh: "mh help" lists the commands\n'), "glue", "--help")
    row("a field of this name", home, (1, "0\n", "mh: no messages match\n"), "pick", "+inbox", "--help", "me")
    row("a switch that is none", home, (1, "", 'mh: unknown switch: -x\nmh: "mh help scan" tells its switches\n'), "scan", "-x")
    row("a folder that is not there", home, (1, "", "mh: no such folder: +none\n"), "scan", "+none")
    check("the offset in the first page", "export MH_OFFSET=$(date +%z)" in first)


def settings():
    """The user's name, words that are no text, and offsets."""
    home = mailbox("ann")
    (home / "var").mkdir()
    row("words that are no text", home, (2, "", "mh: word 2 is no UTF-8 text\n"), "scan", b"+\xff", "x")
    row("by its own name", home, (2, "0\n", "mh: word 1 is no UTF-8 text\n"), b"+\xff", program=f"{ROOM}/names/pick")
    listing = run(home, "scan", "+inbox").stdout.decode()
    for text in ("+02:00", "Z", "CEST", "+0", "0200"):
        warning = f'mh: MH_OFFSET is "{text}", which is neither +hhmm nor -hhmm: times are in UTC\n'
        row(f"MH_OFFSET={text}", home, (0, listing, warning), "scan", "+inbox", env={"MH_OFFSET": text})
    row("an empty MH_OFFSET", home, (0, listing, ""), "scan", "+inbox", env={"MH_OFFSET": ""})
    # The mail file of a home with slashes behind it is the user's.
    for behind in ("", "/", "//"):
        ran = subprocess.run(["strace", "-f", "-e", "trace=file", PROGRAM, "inc"], env={"HOME": f"{home}{behind}"}, capture_output=True, text=True) if shutil.which("strace") else None
        if ran is not None:
            check(f"the mail file of HOME={home.name}{behind}", '"/var/mail/ann"' in ran.stderr, ran.stderr[-300:])
    if not shutil.which("strace"):
        print("strace is not installed: the mail file's name is not looked at")


def files():
    """What the files say of a fault, and of a name that leads nowhere, and of nothing else."""
    home = mailbox("files")
    row("a folder that is not there", home, (1, "", "mh: no such folder: +none\n"), "scan", "+none")
    if "A stand-in" in (TOP / "crates/host_files/src/files.rt").read_text():
        print("the files tell nothing of their faults yet: the second line is not looked at")
        return
    for number, line in (("4", "mh: fault of files\n"), ("none", "mh: name 5 in +inbox was changed meanwhile\n")):
        bad = home / "Mail/inbox" / ("4" if number == "4" else "5")
        bad.symlink_to(number)
        ran = run(home, "scan", "+inbox")
        first, more = ran.stderr.decode().split("\n", 1)
        check(f"a link to {number}", first + "\n" == line and re.fullmatch(rf"mh: .*Mail/inbox/{bad.name}\b.*\n", more) is not None, ran)
        bad.unlink()
    with open("/dev/full", "w") as full:
        ran = subprocess.run([PROGRAM, "scan", "+inbox"], env={"HOME": str(home)}, stdout=full, stderr=subprocess.PIPE)
    check("nothing of a fault of the output", ran.stderr == b"mh: fault of output\n", ran)


class locked:
    """A folder whose lock is held, for so many seconds where they are given."""

    def __init__(self, folder, seconds=None):
        self.file = open(folder / ".mh_lock", "w")
        fcntl.flock(self.file, fcntl.LOCK_EX)
        if seconds is not None:
            threading.Timer(seconds, self.file.close).start()

    def __enter__(self):
        return self

    def __exit__(self, *_):
        self.file.close()


def waits():
    """`--wait` makes the call again while its folder is locked."""
    home = mailbox("waits")
    inbox = home / "Mail/inbox"
    (inbox / ".mh_lock").touch()
    with locked(inbox, 0.7):
        start = time.monotonic()
        row("a lock that falls", home, (0, "", ""), "--wait", "10", "mark", "+inbox", "-sequence", "q", "1")
        took = time.monotonic() - start
        check("it waited so long", 0.6 < took < 3, took)
    with locked(inbox):
        start = time.monotonic()
        row("a lock that stays", home, (3, "", "mh: +inbox is locked\n"), "--wait", "1", "mark", "-sequence", "q", "2")
        took = time.monotonic() - start
        check("it waited to the end", 0.9 < took < 3, took)
        row("no time", home, (3, "", "mh: +inbox is locked\n"), "--wait", "0", "mark", "-sequence", "q", "2")
        row("a pick that lists", home, (3, "0\n", "mh: +inbox is locked\n"), "--wait", "0", "pick", "-sequence", "q", "-list")
        row("a look needs no lock", home, (0, "cur: 2\nq: 1\n", ""), "--wait", "9", "mark")
    (home / "Mail/.mh_lock").touch()
    (home / "Mail/context").unlink()
    with locked(home / "Mail"):
        start = time.monotonic()
        ran = run(home, "--wait", "30", "rmm", "+inbox", "3")
        check("the mail directory's lock is not waited for", (ran.returncode, ran.stderr) == (3, b"mh: mail directory is locked\n") and time.monotonic() - start < 9, ran)
        check("the work was done once", not (inbox / "3").exists() and (inbox / ",3").exists())
    row("no value", home, (1, "", "mh: missing value: --wait\n"), "--wait")
    row("no number", home, (1, "", "mh: bad value: --wait\n"), "--wait", "1.5", "scan")
    row("no command", home, (1, "", run(home).stderr.decode()), "--wait", "1")
    row("help", home, (0, run(home, "help", "scan").stdout.decode(), ""), "--wait", "1", "help", "scan")
    row("no switch of a command", home, (1, "", 'mh: unknown switch: --wait\nmh: "mh help scan" tells its switches\n'), "scan", "--wait", "1")
    draft = "From: a@b.example\nSubject: x\n\ntext\n"
    row("the input", home, run_wanted(run(home, "mhbuild", "-", input=draft.encode())), "--wait", "1", "mhbuild", "-", input=draft.encode())
    calls = [subprocess.Popen([PROGRAM, "--wait", "60", "mark", "+inbox", "-sequence", f"s{n}", "1-2"], env={"HOME": str(home)}, stderr=subprocess.PIPE) for n in range(20)]
    ends = [(it.wait(), it.stderr.read()) for it in calls]
    check("twenty marks at once wait for each other", [it for it in ends if it[0] not in (0, 3) or b"+inbox" in it[1]] == [], ends)
    check("and each is made", (inbox / ".mh_sequences").read_text().count(": 1-2\n") == 20)


def run_wanted(ran):
    return ran.returncode, ran.stdout.decode(), ran.stderr.decode()


ROOM.mkdir(parents=True)
(ROOM / "names").mkdir()
(ROOM / "names/pick").symlink_to(PROGRAM)
for part in (refused_picks, profiles, pipes, helped, settings, files, waits):
    part()
print(f"{passed} passed, {failed} failed")
