"""Faults of the system: no room, no permission, limits, calls that fail. Each is told, nothing is lost, and afterwards it goes on."""
import collections
import contextlib
import itertools
import os
import re
import resource
import shutil
import signal
import subprocess
import time

from books import NOBODY, NOTE, Box, acknowledged, bare, drop_of, left_aside, message, moved, newcomers, read_drop, taken_in, torn

SOURCE = "inbox"
# Behind a fault of files, a change meanwhile and a wrong word a second line tells more.
FAULT = re.compile(rb"mh: (fault of files\n(mh: [^\n]+\n)?|fault of output\n|no setting\n)")
REFUSAL = re.compile(rb"(mh: [^\n]+\n){1,2}")

# The commands that write to the output where all is well.
TELL = ("inc", "scan", "folder", "folder with a message")
# Those of them that change nothing: they are silent where their reader has gone.
LOOK = ("scan", "folder")

# The words of anno that put its line in front of messages.
NOTING = ["-component", NOTE.decode().split(":")[0], "-text", NOTE.decode().split(": ")[1].strip(), "-nodate"]

# The commands that are tried under faults: their words, which messages may move, and where they go. A later command is one entry more.
COMMANDS = {
    "inc": (["inc"], (), [SOURCE]),
    "refile": (["refile", "2-5", "+a", "-src", SOURCE], (2, 3, 4, 5), ["a"]),
    "refile -link": (["refile", "-link", "2-5", "+a", "-src", SOURCE], (), ["a"]),
    "mark": (["mark", f"+{SOURCE}", "1-4", "-sequence", "x"], (), []),
    "mark -nopublic": (["mark", f"+{SOURCE}", "1-4", "-sequence", "x", "-nopublic"], (), []),
    "pick": (["pick", f"+{SOURCE}", "-subject", "message", "-sequence", "y"], (), []),
    "rmm": (["rmm", f"+{SOURCE}", "2-5"], (2, 3, 4, 5), []),
    "scan": (["scan", f"+{SOURCE}"], (), []),
    "folder": (["folder", f"+{SOURCE}"], (), []),
    "folder with a message": (["folder", f"+{SOURCE}", "3-4"], (), []),
    "anno": (["anno", f"+{SOURCE}", "2-5", *NOTING], (2, 3, 4, 5), [SOURCE]),
}


def mailbox(program, home, lines=30):
    """Eight messages, two folders, and a drop of four messages."""
    folders = {SOURCE: {n: message(n, lines) for n in range(1, 9)}, "a": {1: message(11)}}
    drop = drop_of([message(7000 + n, lines) for n in range(4)])
    sequences = {SOURCE: b"cur: 1\ntodo: 1-8\n", "a": b"liked: 1\n"}
    return Box(program, home).make(folders, drop, sequences, b"Kept: yes\nCurrent-Folder: a\n")


def ended_clearly(ran, silent=False):
    """Done; or a refusal, a lock, a change meanwhile; or a fault: each of them with its one line. That a reader has gone is no news to tell."""
    if ran.returncode == 0 and ran.stderr == b"" or silent and ran.returncode == 2 and ran.stderr == b"":
        return []
    if ran.returncode == 2 and FAULT.fullmatch(ran.stderr) or ran.returncode in (1, 3, 4, 5) and REFUSAL.fullmatch(ran.stderr):
        return []
    return [f"status {ran.returncode}: {ran.stderr}"]


def nothing_lost(before, look, name, out, settled):
    """The rules of the books: each message stands where it stood, or where the command brought it, whole; no number changed its message."""
    words, chosen, into = COMMANDS[name]
    drop = read_drop(before.drop)
    comes = set(drop) if name == "inc" else {before.numbers[SOURCE][n] for n in range(2, 6)}
    bad = torn(look, set(before.texts()) | set(drop)) + moved(before, look, SOURCE, chosen) + newcomers(before, look, into, comes)
    bad += taken_in(look, SOURCE, before.drop) if name == "inc" else []
    bad += acknowledged(look, SOURCE, out) if name == "inc" else []
    there = look.texts() + list(look.held[SOURCE].values()) + list(look.backups[SOURCE].values())
    bad += [f"message {n} is lost" for n in chosen if before.numbers[SOURCE][n] not in map(bare, there)]
    for n, text in before.numbers[SOURCE].items():
        if bare(look.numbers[SOURCE].get(n, text)) != text:
            bad.append(f"number {n} has another message")
    if settled:
        bad += left_aside(look, look.numbers)
        bad += ["an entry of the context is lost"] if look.context.get("Kept") != "yes" else []
        bad += sequences_stand(before, look)
    return bad


def sequences_stand(before, look):
    """The sequences that no command changed have the same messages, where these are still there."""
    todo = before.public[SOURCE]["todo"] & set(look.numbers[SOURCE])
    bad = [] if look.public[SOURCE].get("todo", set()) == todo else [f"the sequence todo is {look.public[SOURCE].get('todo')} for {todo}"]
    return bad + ([] if look.public["a"].get("liked") == {1} else ["the sequence liked of a is gone"])


def goes_on(box, before, name):
    """Once the fault is gone the same command mends and completes; what is left of its words may be nothing."""
    words, chosen, into = COMMANDS[name]
    look = box.look()
    left = [str(n) for n in chosen if n in look.numbers[SOURCE] or any(it.endswith(f"_{n}") for it in look.held[SOURCE])]
    words = [it for it in words if it != "2-5"] + left if chosen else words
    bad = []
    if left or not chosen:
        ran = box.run(*words)
        nothing = name == "inc" and not look.drop and (ran.returncode, ran.stderr) == (1, b"mh: no mail to incorporate\n")
        bad = [] if ran.returncode == 0 or nothing else [f"the command run again ended in {ran.returncode}: {ran.stderr}"]
    for folder in (SOURCE, "a"):
        ran = box.run("mark", f"+{folder}", "all", "-sequence", "end")
        bad += [] if ran.returncode == 0 else [f"the mark that mends {folder} ended in {ran.returncode}: {ran.stderr}"]
    end = box.look()
    return bad + nothing_lost(before, end, name, b"", True) + completed(before, end, name)


def completed(before, end, name):
    """What the command is there for is done at the end."""
    words, chosen, into = COMMANDS[name]
    if name == "inc":
        return ["the drop is not empty"] if end.drop else []
    if name.startswith("refile"):
        return [f"message {n} is not in a" for n in range(2, 6) if before.numbers[SOURCE][n] not in end.numbers["a"].values()]
    if name == "anno":
        return [f"message {n} has no line" for n in range(2, 6) if not end.numbers[SOURCE].get(n, b"").startswith(NOTE)]
    if name.startswith("mark"):
        found = end.private(SOURCE) if "nopublic" in name else end.public[SOURCE]
        return [] if found.get("x") == {1, 2, 3, 4} else [f"the sequence x is {found.get('x')}"]
    if name.startswith("folder"):
        cur = end.public[SOURCE].get("cur")
        return [] if cur == {3 if "message" in name else 1} else [f"the current message is {cur}"]
    return []


class Tally:
    """Counts how often each kind of fault was tried, and how the commands ended."""

    def __init__(self, count, room):
        self.count, self.room, self.ends = count, room, collections.defaultdict(collections.Counter)

    def tried(self, kind, name, how, box, before, ran, mend, faulty=False, silent=False):
        """Checks one run under a fault: its end, the books, and that it goes on when the fault is gone."""
        self.ends[kind][ran.returncode] += 1
        bad = ended_clearly(ran, silent)
        if faulty and ran.returncode != 2:
            bad.append(f"status {ran.returncode} where there is a fault")
        mend()
        bad += nothing_lost(before, box.look(), name, ran.stdout, False)
        bad += goes_on(box, before, name)
        self.count.check(f"{name}, {kind}: {how}", bad, [("box", box.home), ("words", " ".join(COMMANDS[name][0]).encode())])


# The kinds of faults. Each gives one try after another, without an end, and none where it can't be tried; closed, it takes back what it did.

def endless(rng, items):
    """All of the items in a random order, again and again."""
    items = list(items)
    while True:
        yield from rng.sample(items, len(items))


def no_room(program, tally, rng):
    """A file system of 2 MB that fills up during a command: so many bytes are left free."""
    where = f"{tally.room}/disk"
    os.makedirs(where)
    mounted = subprocess.run(["mount", "-t", "tmpfs", "-o", "size=2m", "tmpfs", where], capture_output=True)
    if mounted.returncode != 0:
        print("  no room: not tried, since no tmpfs can be mounted here")
        return
    try:
        for name in endless(rng, COMMANDS):
            yield fill_up(program, tally, where, name, 4096 * rng.choice([0, 0, 1, 1, 2, 3, 4, 6, 9]))
    finally:
        subprocess.run(["umount", where], check=True)


def fill_up(program, tally, where, name, free):
    """One command with so many bytes left."""
    box = mailbox(program, f"{where}/box", 100)
    before, ballast = box.look(), f"{where}/ballast"
    state = os.statvfs(where)
    with open(ballast, "wb") as f:
        f.write(b"x" * max(0, state.f_bavail * state.f_frsize - free))
    ran = box.run(*COMMANDS[name][0])
    tally.tried("no room", name, f"{free} bytes free", box, before, ran, lambda: os.remove(ballast))


# What a user may not do: a path below the home directory and the rights that are left of it.
RIGHTS = [("Mail/inbox", 0o555), ("Mail/inbox", 0o000), ("Mail/inbox", 0o311), ("Mail/a", 0o555), ("Mail/a", 0o000), ("Mail", 0o555),
          ("Mail", 0o000), ("drop", 0o000),
          ("drop", 0o444), ("Mail/inbox/3", 0o000), ("Mail/inbox/.mh_sequences", 0o000), ("Mail/context", 0o000), (".mh_profile", 0o000),
          ("Mail/inbox/.mh_lock", 0o000), ("Mail/.mh_lock", 0o000), (".", 0o555)]


def no_permission(program, tally, rng):
    """Directories that are read-only, and files that may not be read: the program runs as the user nobody."""
    if os.getuid() != 0:
        print("  no permission: not tried, since this is not root")
        return
    for (path, mode), name in endless(rng, itertools.product(RIGHTS, COMMANDS)):
        box = mailbox(program, f"{tally.room}/rights")
        if path.endswith(".mh_lock"):
            open(f"{box.home}/{path}", "w").close()
        box.own(NOBODY)
        before = box.look()
        os.chmod(f"{box.home}/{path}", mode)
        ran = box.run(*COMMANDS[name][0])
        yield tally.tried("no permission", name, f"{path} {mode:03o}", box, before, ran, lambda: give_back(box))


def give_back(box):
    """The owner may do all again."""
    for at, folders, files in os.walk(box.home):
        for name in folders:
            os.chmod(f"{at}/{name}", 0o700)
        for name in files:
            os.chmod(f"{at}/{name}", 0o600)
    os.chmod(box.home, 0o700)


def few_files(program, tally, rng):
    """A small number of files that may be open at once: as many as the start takes, and a few more."""
    least = least_files(program, tally.room)
    for name in endless(rng, COMMANDS):
        files = least + rng.choice([0, 0, 1, 1, 2, 3, 4])
        yield limited(program, tally, name, "few open files", files, lambda: resource.setrlimit(resource.RLIMIT_NOFILE, (files, files)))


def least_files(program, room):
    """The least limit of open files under which the program starts at all: the loader of programs opens files too."""
    box = mailbox(program, f"{room}/least")
    for files in range(3, 20):
        ran = box.run("none", preexec_fn=lambda: resource.setrlimit(resource.RLIMIT_NOFILE, (files, files)))
        if b"error while loading" not in ran.stderr:
            return files
    return 20


def short_files(program, tally, rng):
    """Files that may not grow beyond a length, as by a quota: SIGXFSZ is ignored, so that a write is told."""
    for name in endless(rng, COMMANDS):
        size = rng.choice([0, 1, 9, 20, 60, rng.randint(0, 1500)])
        yield limited(program, tally, name, "short files", size, lambda: no_longer_than(size))


def no_longer_than(size):
    """Sets the limit of a file's length."""
    signal.signal(signal.SIGXFSZ, signal.SIG_IGN)
    resource.setrlimit(resource.RLIMIT_FSIZE, (size, size))


def limited(program, tally, name, kind, limit, set_limit):
    """One command under a limit."""
    box = mailbox(program, f"{tally.room}/limits")
    before = box.look()
    ran = box.run(*COMMANDS[name][0], preexec_fn=set_limit)
    tally.tried(kind, name, str(limit), box, before, ran, lambda: None)


def bad_output(program, tally, rng):
    """An output that is full, or whose reader has gone, or that is closed."""
    kinds = ("full", "gone", "closed")
    for kind, name in itertools.chain(itertools.product(kinds, TELL[:2]), endless(rng, itertools.product(kinds, COMMANDS))):
        box = mailbox(program, f"{tally.room}/outputs")
        before = box.look()
        ran = with_output(box, kind, COMMANDS[name][0])
        tally.count.check(f"{name}, bad output: {kind}: nothing is written elsewhere", written_elsewhere(box))
        yield tally.tried("bad output", name, kind, box, before, ran, lambda: None, faulty=kind != "closed" and name in TELL,
                          silent=kind == "gone" and name in LOOK)


def with_output(box, kind, words):
    """Runs a command with such an output."""
    if kind == "full":
        with open("/dev/full", "wb") as f:
            ran = box.run(*words, stdout=f)
    elif kind == "gone":
        reading, writing = os.pipe()
        os.close(reading)
        ran = box.run(*words, stdout=writing)
        os.close(writing)
    else:
        ran = box.run(*words, preexec_fn=lambda: os.close(1))
    ran.stdout = b""
    return ran


def written_elsewhere(box):
    """Lock files stay empty: what can't be written to the output is written nowhere."""
    locks = [f"{box.mail}/{it}/.mh_lock" for it in (".", *box.folders())]
    return [f"{os.path.relpath(it, box.home)} has {os.path.getsize(it)} bytes" for it in locks if os.path.exists(it) and os.path.getsize(it)]


# Which error a call of the system is answered.
ERRORS = {"write": "ENOSPC", "openat": "EMFILE", "mkdir": "EACCES", "link": "ENOSPC", "rename": "EIO", "unlink": "EIO", "fsync": "EIO",
          "ftruncate": "EIO",
          "flock": "ENOLCK", "read": "EIO", "getdents64": "EIO", "statx": "EIO"}


def failing_calls(program, tally, rng):
    """A certain call of the system fails: the first, the second and so on of its name. Needs strace."""
    if not shutil.which("strace"):
        print("  failing calls: not tried, since strace is not installed")
        return
    calls = {name: calls_of(program, tally.room, name) for name in COMMANDS}
    for name in endless(rng, COMMANDS):
        call, k, must = rng.choice(calls[name])
        box = mailbox(program, f"{tally.room}/calls")
        before = box.look()
        inject = ["strace", "-qq", "-o", "/dev/null", "-e", f"trace={call}", "-e", f"inject={call}:error={ERRORS[call]}:when={k}"]
        process = box.start(*COMMANDS[name][0], before=inject)
        out, err = process.communicate(timeout=60)
        ran = subprocess.CompletedProcess([], process.returncode, out, err)
        yield tally.tried("failing calls", name, f"{call} {k}", box, before, ran, lambda: None, faulty=must)


def calls_of(program, room, name):
    """The calls that a command makes from the first look at the home directory on: each by its name, its place among those, and whether it is a fault that it
    fails. It is none where what an open file is can't be told, which then isn't kept open for its next sync, or how many links a directory above has."""
    box, trace = mailbox(program, f"{room}/calls"), f"{room}/calls.trace"
    box.start(*COMMANDS[name][0], before=["strace", "-qq", "-o", trace, "-e", f"trace={','.join(ERRORS)}"]).communicate()
    counts, found, seen = collections.Counter(), [], False
    with open(trace, errors="replace") as f:
        for line in f:
            call = re.match(r"(\w+)\(", line)
            if call:
                counts[call.group(1)] += 1
                seen = seen or box.home in line
                must = re.match(r'statx\((\d+, ""|AT_FDCWD, "[^"]*/\.\.")', line) is None
                found += [(call.group(1), counts[call.group(1)], must)] if seen else []
    return found


LEAST_TRIES = 6
KINDS = [no_room, no_permission, few_files, short_files, bad_output, failing_calls]


def run(program, seconds, room, count, rng, only=""):
    """Each kind of fault for its share of the seconds, and at least a few times."""
    tally = Tally(count, room)
    for kind in KINDS:
        end = time.monotonic() + seconds / len(KINDS)
        with contextlib.closing(kind(program, tally, rng)) as tries:
            for n, _ in enumerate(tries, 1):
                if n >= LEAST_TRIES and time.monotonic() > end:
                    break
    for kind, ends in tally.ends.items():
        print(f"  {kind}: " + ", ".join(f"{n} ended in {status}" for status, n in sorted(ends.items())))
