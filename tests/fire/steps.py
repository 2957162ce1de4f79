"""The steps that are trusted: each command runs once under strace; its calls are compared with a text of tests/fire/steps and with rules."""
import os
import re
import shutil

from books import Box, drop_of, message

HERE = os.path.dirname(os.path.abspath(__file__))
DEAD = "0" * 31 + "5"
# The number of the temporary name by which a link is tried before a message is held aside.
TRIAL = 2 ** 64 - 2
TRACED = ("mkdir,mkdirat,open,openat,close,read,write,fsync,fdatasync,link,linkat,unlink,unlinkat,rename,renameat,renameat2,"
          "ftruncate,truncate,flock,fcntl,getdents64")


def held(n):
    """The name under which a dead run holds a message aside."""
    return f".mh_held_{DEAD}_{n}"


def tiny(box, **more):
    """A mailbox of three messages and two folders."""
    folders = {"inbox": {n: message(n, 2) for n in (1, 2, 3)}, "a": {1: message(11, 2)}, "b": {}}
    given = {"drop": drop_of([message(7001, 2), message(7002, 2)]), "sequences": {"inbox": b"cur: 1\ntodo: 1-3\n"},
             "context": b"Current-Folder: b\n"}
    return box.make(folders, **{**given, **more})


def turned(box):
    """The same, where messages 2 and 3 have changed their places."""
    tiny(box)
    inbox = f"{box.mail}/inbox"
    for n, other in ((2, 3), (3, 2)):
        with open(f"{inbox}/{n}", "wb") as f:
            f.write(message(other, 2))


def gapped(box):
    """The same, without message 1."""
    tiny(box)
    os.remove(f"{box.mail}/inbox/1")


def left_by_the_dead(box):
    """The same, where a dead run holds messages 2 and 3 aside, of which 3 is taken, and left temporary names."""
    tiny(box)
    inbox = f"{box.mail}/inbox"
    os.rename(f"{inbox}/2", f"{inbox}/{held(2)}")
    shutil.copy(f"{inbox}/3", f"{inbox}/{held(3)}")
    shutil.copy(f"{inbox}/1", f"{inbox}/.mh_temp_{DEAD}_0")
    shutil.copy(f"{inbox}/1", f"{box.mail}/.mh_temp_{DEAD}_1")


# The commands that are traced: the name of the expected text, how the mailbox is made, and the words. A later command is one entry more.
TRACES = [
    ("inc", tiny, ["inc"]),
    ("refile", tiny, ["refile", "1-2", "+a", "-src", "inbox"]),
    ("refile-two", tiny, ["refile", "2", "+a", "+b", "-src", "inbox"]),
    ("refile-new", tiny, ["refile", "2", "+c/d", "-src", "inbox"]),
    ("refile-link", tiny, ["refile", "-link", "2", "+a", "-src", "inbox"]),
    ("rmm", tiny, ["rmm", "+inbox", "2"]),
    ("rmm-unlink", tiny, ["rmm", "+inbox", "-unlink", "2"]),
    ("mark", tiny, ["mark", "+inbox", "2", "-sequence", "x"]),
    ("mark-nopublic", tiny, ["mark", "+inbox", "2", "-sequence", "x", "-nopublic"]),
    ("pick-sequence", tiny, ["pick", "+inbox", "-subject", "message 2", "-sequence", "x"]),
    ("scan", tiny, ["scan", "+inbox", "1"]),
    ("folder", tiny, ["folder", "+inbox"]),
    ("folder-message", tiny, ["folder", "+inbox", "2-3"]),
    ("folder-pack", gapped, ["folder", "+inbox", "-pack"]),
    ("mhlist", tiny, ["mhlist", "+inbox", "2"]),
    ("sortm", turned, ["sortm", "+inbox", "-textfield", "subject"]),
    ("anno", tiny, ["anno", "+inbox", "1", "3", "-component", "Noted", "-text", "so", "-nodate"]),
    ("mend", left_by_the_dead, ["mark", "+inbox", "1", "-sequence", "x"]),
]


class Event:
    """One call: its kind, the names that it is about, below the home directory, and what it was answered."""

    def __init__(self, kind, names, answer="", more=""):
        self.kind, self.names, self.answer, self.more = kind, names, answer, more

    def line(self):
        """The event as a line of text."""
        words = [f"{self.kind:8}", " -> ".join(self.names), *([self.more] if self.more else [])]
        return " ".join(words) + (f": {self.answer}" if self.answer else "")


CALL = re.compile(r"^(\w+)\((.*)\)\s+= (-?\d+)(?:<[^>]*>)?(?: (\w+))?")
TEXT = re.compile(r'"((?:[^"\\]|\\.)*)"')
OPEN_FILE = re.compile(r"(\d+)<([^>]*)>")
ANSWERS = {"EEXIST": "exists", "ENOENT": "gone", "EAGAIN": "busy"}


class Trace:
    """Reads the lines of strace into events."""

    def __init__(self, home):
        self.home, self.runs, self.last = os.path.realpath(home), {DEAD: "dead"}, None

    def name(self, path):
        """A path below the home directory, with words for the numbers of runs; none for what stands elsewhere."""
        path = path.rstrip("/")
        if path == self.home:
            return "home"
        if not path.startswith(self.home + "/"):
            return None
        name = path[len(self.home) + 1:]
        for kind, run in re.findall(r"\.mh_(temp|held)_([0-9a-f]{32})", name):
            self.runs.setdefault(run, "own" if len(self.runs) == 1 else f"run{len(self.runs)}")
            name = name.replace(f".mh_{kind}_{run}", f"{self.runs[run]}-{kind}")
        return name.replace(f"own-temp_{TRIAL}", "own-temp_trial")

    def events(self, lines):
        """The events of these lines."""
        found = [self.event(*it.groups()) for it in map(CALL.match, lines) if it]
        return [it for it in found if it]

    def event(self, call, given, value, error):
        """The event of one call; none where nothing is to be told of it."""
        names = [self.name(it) for it in TEXT.findall(given)]
        opened = OPEN_FILE.match(given)
        file = self.name(opened.group(2)) if opened else None
        answer = ANSWERS.get(error, error or "")
        if call.startswith("open"):
            return self.opening(given, names, answer)
        if call == "getdents64":
            return Event("list", [file]) if file and value != "0" else None
        if call == "read":
            return self.reading(file, value)
        if call == "close":
            return Event("unlock", [os.path.dirname(file)]) if file and file.endswith(".mh_lock") else None
        if call == "write" and opened and opened.group(1) in "12":
            return Event("output", [first_words(given)])
        if call == "flock" and file:
            kind = "share" if "LOCK_SH" in given else "lock"
            return Event(kind, [os.path.dirname(file)] if file.endswith(".mh_lock") else [file], answer)
        if call == "fcntl":
            return Event("range", [file], answer) if file and "SETLK" in given else None
        if call in ("write", "fsync", "fdatasync", "ftruncate") and file:
            return Event({"write": "write", "ftruncate": "cut"}.get(call, "sync"), [file], answer)
        kinds = {"mkdir": "mkdir", "mkdirat": "mkdir", "link": "link", "linkat": "link", "unlink": "unlink", "unlinkat": "unlink",
                 "rename": "rename", "renameat": "rename", "renameat2": "rename", "truncate": "cut"}
        return Event(kinds[call], names, answer) if call in kinds and all(names) else None

    def opening(self, given, names, answer):
        """A file that is made new, or is open to be read or written; the lock's file is told of where it is locked."""
        if not names or not names[-1] or names[-1].endswith(".mh_lock"):
            return None
        if "O_CREAT" in given:
            return Event("create", names[-1:], answer, "" if "O_EXCL" in given else "(not new)")
        return Event("open", names[-1:], answer, "to write") if "O_WRONLY" in given or "O_RDWR" in given else None

    def reading(self, file, value):
        """A read of a file that gave something."""
        return Event("read", [file]) if file and value != "0" else None


def first_words(given):
    """The front of what is written to the output."""
    text = TEXT.search(given).group(1)
    return f'"{text[:40]}.."' if len(text) > 40 else f'"{text}"'


def traced(program, room, name, make, words):
    """Runs the words under strace: the events, and what the program answered."""
    box = Box(program, f"{room}/{name}")
    make(box)
    path = f"{room}/{name}.trace"
    process = box.start(*words, before=["strace", "-y", "-qq", "-s", "100", "-o", path, "-e", f"trace={TRACED}"])
    err = process.communicate()[1]
    with open(path, errors="replace") as f:
        return Trace(box.home).events(f.readlines()), process.returncode, err


def once_each(events):
    """Leaves out reads of one file that follow each other."""
    lines = []
    for it in events:
        if not (it.kind == "read" and lines and lines[-1] == it.line()):
            lines.append(it.line())
    return lines


def place(name):
    """The directory of a name."""
    return os.path.dirname(name)


def is_number(name):
    """Whether a name is a message's number."""
    return os.path.basename(name).isdigit()


def of_drop_lock(event):
    """Whether a call is about the drop's lock file, which stands beside the drop and is no part of the mailbox."""
    return all(it.startswith("drop.lock") for it in event.names)


def synced_files(events):
    """A temporary name gets a number, or takes a text's place, only once its file was written and then synced."""
    bad, safe = [], set()
    for it in events:
        if it.kind == "write":
            safe.discard(it.names[0])
        elif it.kind == "sync":
            safe.add(it.names[0])
        elif it.kind in ("link", "rename") and "-temp_" in it.names[0] and it.names[0] not in safe:
            bad.append(f"{it.names[0]} went to {it.names[1]} before it was synced")
    return bad


def synced_lines(events):
    """The line of a message is written only once its number was linked and then the folder synced."""
    bad, safe, fresh = [], set(), set()
    puts = any(it.kind == "link" for it in events)
    for it in events:
        if it.kind == "link" and is_number(it.names[1]) and not it.answer:
            fresh.add(it.names[1])
        elif it.kind == "sync":
            safe |= {name for name in fresh if place(name) == it.names[0]}
        elif it.kind == "output":
            line = re.match(r'^" *(\d+)', it.names[0])
            if line and puts and f"Mail/inbox/{line.group(1)}" not in safe:
                bad.append(f"the line of {line.group(1)} was written before its folder was synced")
    return bad


def synced_discards(events):
    """A held name goes only once its message has a number again, in a folder that was synced after that: by a link of the held name itself in
    its own folder, as one that a dead run held and one that changes its place; else by a copy, made since the run took it, in each folder to
    which messages go."""
    bad, taken_at, last = [], {}, list(enumerate(events))
    into = {place(it.names[1]) for it in events if it.kind == "link" and "own-temp_" in it.names[0]}
    for k, it in last:
        if it.kind == "rename" and "own-held_" in it.names[1]:
            taken_at[it.names[1]] = k
        if it.kind == "unlink" and "-held_" in it.names[0]:
            name = it.names[0]
            links = [(j, e) for j, e in last[:k] if e.kind == "link" and not e.answer]
            given = [j for j, e in links if e.names[0] == name]
            if given or "own-held_" not in name:
                if not any(synced(last[j:k], place(name)) for j in given):
                    bad.append(f"{name} went before its number was safe")
                continue
            for folder in into:
                puts = [j for j, e in links if j > taken_at.get(name, k) and place(e.names[1]) == folder and is_number(e.names[1])]
                if not puts or not synced(last[puts[-1]:k], folder):
                    bad.append(f"{name} went before its copy was safe in {folder}")
            if not into:
                bad.append(f"{name} went without a copy")
    return bad


def synced(part, folder):
    """Whether a folder was synced in this part."""
    return any(e.kind == "sync" and e.names[0] == folder for _, e in part)


def cut_last(events):
    """A drop is cut at last: behind it no message is put, nothing is committed and no line written; and it is cut under its lock."""
    cuts = [k for k, it in enumerate(events) if it.kind == "cut"]
    bad = ["the drop is cut more than once"] if len(cuts) > 1 else []
    for k in cuts:
        behind = [it for it in events[k + 1:] if it.kind != "unlock" and (it.kind, it.names) != ("sync", ["drop"]) and not of_drop_lock(it)]
        bad += [f"behind the cut: {it.line()}" for it in behind]
        bad += [f"the drop is cut without its lock: {it}" for it in missing_locks(events[:k])]
    return bad


def missing_locks(events):
    """The drop's locks that are not had after these calls, of the three under which others deliver."""
    had = {(it.kind, it.names[-1]) for it in events if not it.answer}
    gone = any(it.kind == "unlink" and it.names == ["drop.lock"] for it in events)
    wanted = {("lock", "drop"): "flock", ("link", "drop.lock"): "the lock file"}
    return [what for it, what in wanted.items() if it not in had or gone and it[0] == "link"]


def read_locked(events):
    """A drop is read under all its locks."""
    return [f"the drop is read without its lock, as call {k}: {what}" for k, it in enumerate(events)
            if it.kind == "read" and it.names == ["drop"] for what in missing_locks(events[:k])]


def under_lock(events):
    """Names of a folder, and of the mail directory, change under that directory's lock alone."""
    bad, locked = [], set()
    for it in events:
        if it.kind == "lock" and not it.answer:
            locked.add(it.names[0])
        elif it.kind == "unlock":
            locked.discard(it.names[0])
        elif it.kind in ("create", "link", "rename", "unlink") and not of_drop_lock(it):
            bad += [f"without the lock of {place(name)}: {it.line()}" for name in it.names if place(name) not in locked]
    return bad


def safe_at_last(events):
    """Each directory is synced after the last change of a name there, but for one that takes a temporary name away or mends."""
    bad = []
    for k, it in enumerate(events):
        if of_drop_lock(it):
            continue
        if it.kind in ("link", "rename") and not it.answer or it.kind == "unlink" and "-temp_" not in it.names[0]:
            bad += [f"never made safe: {it.line()}" for name in it.names if not synced(list(enumerate(events))[k:], place(name))]
    return bad


def replaced_never(events):
    """A number is reached by a link alone; a rename goes from a number to its held name or backup, or from a temporary name to a text."""
    bad = []
    for it in events:
        if it.kind == "rename":
            old, new = map(os.path.basename, it.names)
            takes = old.isdigit() and new in (f"own-held_{old}", f",{old}")
            if not takes and not (old.startswith("own-temp_") and new in (".mh_sequences", "context")):
                bad.append(f"not allowed: {it.line()}")
        elif it.kind == "create" and not os.path.basename(it.names[0]).startswith("own-temp_") and not of_drop_lock(it):
            bad.append(f"not allowed: {it.line()}")
    return bad


RULES = [synced_files, synced_lines, synced_discards, cut_last, read_locked, under_lock, safe_at_last, replaced_never]


def expected(name):
    """The text that is kept of this command, without the remarks at its head."""
    path = f"{HERE}/steps/{name}.txt"
    if not os.path.exists(path):
        return None
    with open(path) as f:
        return [it.rstrip("\n") for it in f if not it.startswith("#")]


def first_difference(lines, wanted):
    """Where two lists of lines differ first."""
    if wanted is None:
        return ["there is no expected text"]
    for k, (line, want) in enumerate(zip(lines + [""] * len(wanted), wanted + [""] * len(lines))):
        if line != want:
            return [f"step {k + 1} is '{line}' for '{want}'"]
    return []


def run(program, seconds, room, count, rng, only=""):
    """Traces each command once. It takes no more time in an hour than in a minute."""
    if not shutil.which("strace"):
        print("  strace is not installed: the steps are not looked at")
        return
    total = 0
    for name, make, words in TRACES:
        events, status, err = traced(program, room, name, make, words)
        lines = once_each(events)
        total += len(lines)
        keep = [("steps.txt", ("\n".join(lines) + "\n").encode()), ("trace", open(f"{room}/{name}.trace", "rb").read())]
        count.check(f"{name}: status", [] if status == 0 else [f"{status}: {err}"])
        count.check(f"{name}: the steps of steps/{name}.txt", first_difference(lines, expected(name)), keep)
        for rule in RULES:
            count.check(f"{name}: {rule.__name__}", rule(events), keep)
    print(f"  {len(TRACES)} commands, {total} steps, {len(RULES)} rules")
