"""Rivals: commands on two folders at once, a delivery into the drop, and a reader; some are killed. Then the books are looked at."""
import collections
import fcntl
import os
import random
import re
import subprocess
import threading
import time

from books import NOTE, Box, bare, drop_of, left_aside, read_drop, sequences_in, subject, torn

STAY = (1, 2, 3)
# Messages that stay too, and get lines: while they are held aside a look doesn't see them, so no sequence here has them.
NOTED = (4, 5)
FORMAT = ["-format", "%4(msg) %(size) %{subject}", "-width", "200"]
LINE = re.compile(r"^ *(\d+) (\d+) (message \d+ \w+)$")

# The ends that are allowed, by command and status, and why. Who isn't called with --wait may be told that a directory is locked (3).
LOCKED = r"(\+[ab]|mail directory) is locked"
ALLOWED = {
    # a number may have left between the look at the folder and the run
    "refile": {0: r"", 1: r"no such message: \d+", 3: LOCKED},
    # the messages that are marked never leave
    "mark": {0: r"", 3: LOCKED},
    # which messages there are to find changes meanwhile
    "pick": {0: r"", 1: r"no messages match", 3: LOCKED},
    # the messages that become current never leave
    "folder": {0: r"", 3: LOCKED},
    # the messages that get lines never leave
    "anno": {0: r"", 3: LOCKED},
    # the sequence may be empty
    "rmm": {0: r"", 1: r"no messages in sequence: victims", 3: LOCKED},
    # the drop may be empty
    "inc": {0: r"", 1: r"no mail to incorporate", 3: LOCKED},
    # scan takes no lock of the folder: what it listed may leave (4)
    "scan": {0: r"", 3: r"mail directory is locked", 4: r"name \d+ in \+[ab] was changed meanwhile"},
}


def message(n, kind):
    """A message of a kind, which its subject tells."""
    return f"From: user@many.example\nSubject: message {n} {kind}\n\n".encode() + f"a line of message {n}\n".encode() * (n % 60 + 1)


# How a run ended, and when it began; a killed one has no status.
Ended = collections.namedtuple("Ended", "status out err begin")


class Scene:
    """What the rivals share: the mailbox, all messages there ever were, by subject, and what was told and complained of."""

    def __init__(self, program, home, rng, seconds, waits):
        self.rng, self.known, self.count_of = rng, {}, 0
        self.front = ["--wait", "60"] if waits else []
        self.bad, self.runs, self.told, self.killed = [], collections.Counter(), [], 0
        folders = {it: {n: self.new("red" if n == 2 else "plain") for n in STAY + NOTED} for it in "ab"}
        for it in "ab":
            folders[it].update({n: self.new() for n in range(6, 16)})
        context = b"Kept: yes\nCurrent-Folder: a\n"
        self.box = Box(program, home).make(folders, context=context, profile=b"Path: Mail\nMailDrop: drop\n")
        self.end = time.monotonic() + seconds
        self.usual = 0.05

    def new(self, kind=None):
        """A message that there wasn't before."""
        self.count_of += 1
        text = message(self.count_of, kind or self.rng.choice(["plain", "plain", "red", "victim"]))
        self.known[subject(text)] = text
        return text

    def goes_on(self):
        """Whether there is time left, and nothing hangs."""
        return time.monotonic() < self.end

    def run(self, *words, kill=False, rng=None):
        """Runs a command, or kills it at a random moment; its status must be one that is allowed."""
        begin = time.monotonic()
        process = self.box.start(*self.front, *words)
        if kill:
            time.sleep(rng.uniform(0, self.usual))
            process.kill()
        try:
            out, err = process.communicate(timeout=90)
        except subprocess.TimeoutExpired:
            process.kill()
            self.bad.append(f"{' '.join(words)} hangs")
            return Ended(None, b"", "", begin)
        if kill:
            self.killed += 1
            return Ended(None, out, "", begin)
        self.usual = 0.9 * self.usual + 0.1 * (time.monotonic() - begin)
        self.runs[words[0], process.returncode] += 1
        line = err.decode("utf-8", "replace")
        pattern = ALLOWED[words[0]].get(process.returncode) if process.returncode != 3 or not self.front else None
        # behind a change meanwhile a second line may tell of the file
        more = "(mh: .+\n)?" if process.returncode == 4 else ""
        if pattern is None or not re.fullmatch(f"(mh: {pattern}\n{more})" if pattern else "", line):
            self.bad.append(f"{' '.join(words)} ended in {process.returncode}: {line.strip()}")
        return Ended(process.returncode, out, line, begin)

    def lines(self, out):
        """The whole lines of an output of scan or inc, each of which must tell of a whole message."""
        found = []
        for line in out.decode("utf-8", "replace").split("\n")[:-1]:
            seen = LINE.match(line)
            if seen is None and (line == "" or line.startswith("Incorporating new mail")):
                continue
            if seen is None or seen.group(3) not in self.known or not self.fits(seen.group(3), int(seen.group(2))):
                self.bad.append(f"a line of a torn message: {line}")
            else:
                found.append((int(seen.group(1)), seen.group(3)))
        return found

    def fits(self, name, size):
        """Whether the message has this size, with lines of anno in front or none."""
        more = size - len(self.known[name])
        return more >= 0 and more % len(NOTE) == 0


def refiler(source, target):
    """Moves a few of the messages that may move, again and again; some of its runs are killed."""
    def step(scene, rng):
        """One move."""
        numbers = [it for it in os.listdir(f"{scene.box.mail}/{source}") if it.isdigit() and int(it) not in STAY + NOTED]
        if numbers:
            chosen = rng.sample(numbers, rng.randint(1, min(3, len(numbers))))
            scene.run("refile", *chosen, f"+{target}", "-src", source, kill=rng.random() < 0.05, rng=rng)
    return step


class Marker:
    """Marks messages that stay, in two sequences of its own, so that it knows what these must be at any time."""

    def __init__(self, public, private):
        self.public, self.private = public, private
        self.expected = {(folder, name): set() for folder in "ab" for name in (public, private)}

    def step(self, scene, rng):
        """One mark, and sometimes a look at what was marked."""
        folder, name = rng.choice("ab"), rng.choice([self.public, self.private])
        chosen = set(rng.sample(STAY, rng.randint(1, 3)))
        act = rng.choice(["-add", "-delete"])
        words = ["mark", f"+{folder}", *map(str, sorted(chosen)), act, "-sequence", name, "-public" if name == self.public else "-nopublic"]
        ran = scene.run(*words)
        before = self.expected[folder, name]
        after = before | chosen if act == "-add" else before - chosen
        if ran.status == 0:
            self.expected[folder, name] = after
        elif "mail directory" in ran.err:
            self.expected[folder, name] = self.seen(scene, folder, name, [before, after])
        if rng.random() < 0.3:
            self.seen(scene, folder, name, [self.expected[folder, name]])

    def seen(self, scene, folder, name, allowed):
        """What the sequence is now, by a list or else by the files; it must be one of those. A mark that was told that the mail directory is
        locked may have been made; one that was told that the folder is was not."""
        ran = scene.run("mark", f"+{folder}", "-list", "-sequence", name)
        if ran.status == 0:
            found = sequences_in({name: ran.out.decode().partition(":")[2]}).get(name, set())
        else:
            found = self.of(scene.box.look(), folder, name)
        if found not in allowed:
            scene.bad.append(f"the sequence {name} of {folder} is {sorted(found)}, none of {[sorted(it) for it in allowed]}")
        return found

    def of(self, look, folder, name):
        """The sequence in a look."""
        return (look.public[folder] if name == self.public else look.private(folder)).get(name, set())


class Teller:
    """Makes messages that stay the current ones, of a folder where nobody else does so: it knows which it must be at any time."""

    LINE = re.compile(rb"b\+ has \d+ messages \(1-\d+\)(?:; cur=(\d+))?\.\n")

    def __init__(self):
        self.expected = None

    def step(self, scene, rng):
        """A look at the folder, or a new current message. Where the mail directory is locked it may have been set."""
        n = rng.choice([None, *STAY])
        ran = scene.run("folder", "+b", *([str(n)] if n else []))
        line, before, after = self.LINE.fullmatch(ran.out), self.expected, n or self.expected
        if line:
            self.expected = after
        elif "mail directory" in ran.err:
            self.expected = self.seen(scene, [before, after])
        if line and line.group(1) != (after and str(after).encode()) or not line and ran.status == 0:
            scene.bad.append(f"folder told {ran.out} of a folder whose current message is {after}")

    def seen(self, scene, allowed):
        """The current message by the files; it must be one of those."""
        found = next(iter(scene.box.look().public["b"].get("cur", ())), None)
        if found not in allowed:
            scene.bad.append(f"the current message of b is {found}, none of {allowed}")
        return found


def picker(scene, rng):
    """Finds red messages and marks them, in a sequence that nobody else touches."""
    scene.run("pick", f"+{rng.choice('ab')}", "-subject", "red", "-sequence", "red")


def annotator(scene, rng):
    """Puts lines in front of messages that stay."""
    name, text = NOTE.decode().strip().split(": ")
    scene.run("anno", f"+{rng.choice('ab')}", *map(str, rng.sample(NOTED, rng.randint(1, 2))), "-component", name, "-text", text, "-nodate", kill=rng.random() < 0.05, rng=rng)


def janitor(scene, rng):
    """Finds the messages that are to go, and removes them by their sequence."""
    folder = rng.choice("ab")
    scene.run("pick", f"+{folder}", "-subject", "victim", "-sequence", "victims")
    scene.run("rmm", f"+{folder}", "victims")


def incorporator(scene, rng):
    """Takes new mail in. What it told must be there at the end."""
    ran = scene.run("inc", "+a", *FORMAT, kill=rng.random() < 0.05, rng=rng)
    scene.told += scene.lines(ran.out)


def deliverer(scene, rng):
    """Appends messages to the drop under its lock, as long as few wait there."""
    path = f"{scene.box.home}/drop"
    if os.path.getsize(path) > 8000:
        time.sleep(0.02)
        return
    texts = [scene.new() for _ in range(rng.randint(1, 3))]
    with open(path, "ab") as f:
        fcntl.flock(f, fcntl.LOCK_EX)
        f.write(drop_of(texts))
        f.flush()
    time.sleep(rng.uniform(0, 10 * scene.usual))


def reader(scene, rng):
    """Scans all the while; no line may tell of a torn message."""
    scene.lines(scene.run("scan", f"+{rng.choice('ab')}", *FORMAT).out)


def until_end(scene, step, rest, rng):
    """Takes one step after another, until the end. It rests up to so many times as long as a run takes, so that locks change hands."""
    while scene.goes_on():
        try:
            step(scene, rng)
        except Exception as fault:
            scene.bad.append(f"{type(fault).__name__} in a rival: {fault}")
            return
        time.sleep(rng.uniform(0, rest * scene.usual))


def sequences_sound(look, markers):
    """The markers' sequences are what they were told; and a sequence of red messages, or of victims, names no other message."""
    bad = []
    for marker in markers:
        for (folder, name), numbers in marker.expected.items():
            found = marker.of(look, folder, name)
            bad += [f"the sequence {name} of {folder} is {sorted(found)} for {sorted(numbers)}"] if found != numbers else []
    for folder in "ab":
        for name, kind in (("red", "red"), ("victims", "victim")):
            for n in look.public[folder].get(name, set()):
                if not subject(look.numbers[folder].get(n, b"")).endswith(kind):
                    bad.append(f"the mark {name} of {folder} stands at {n}, which is no {kind} message")
    return bad


def books(scene, markers):
    """Each message that is no victim stands in a folder, each that does is whole, only victims were removed, and the marks are sound."""
    bad = []
    for folder in "ab":
        ran = scene.box.run("mark", f"+{folder}", "all", "-sequence", "end")
        bad += [] if ran.returncode == 0 else [f"the last mark ended in {ran.returncode}: {ran.stderr}"]
    waiting = read_drop(scene.box.look().drop) or []
    ran = scene.box.run("inc", "+a", *FORMAT)
    bad += [] if ran.returncode == (0 if waiting else 1) else [f"the last inc ended in {ran.returncode}: {ran.stderr}"]
    scene.told += scene.lines(ran.stdout)
    look = scene.box.look()
    there = {bare(text) for text in look.texts()}
    bad += [f"{name} is lost" for name, text in scene.known.items() if text not in there and not name.endswith("victim")]
    bad += [f"{name} was told and is lost" for _, name in scene.told if scene.known[name] not in there and not name.endswith("victim")]
    bad += torn(look, set(scene.known.values())) + left_aside(look, "ab")
    bad += [f"{n} of {it} was removed" for it in "ab" for n, text in look.backups[it].items() if not subject(text).endswith("victim")]
    bad += ["the drop is not empty"] if look.drop else []
    bad += ["an entry of the context is lost"] if look.context.get("Kept") != "yes" else []
    return bad + sequences_sound(look, markers)


def episode(program, home, rng, seconds, waits):
    """One mailbox with its rivals, for so many seconds: the scene, and all complaints. Where they wait for each other none may be told of a lock."""
    scene, markers, teller = Scene(program, home, rng, seconds, waits), [Marker("ours", "mine"), Marker("theirs", "hers")], Teller()
    # The refilers, which need both locks, rest less than the others.
    steps = [(refiler("a", "b"), 1.5), (refiler("b", "a"), 1.5), (markers[0].step, 4), (markers[1].step, 4), (teller.step, 4), (picker, 4),
             (annotator, 4), (janitor, 6), (incorporator, 4), (deliverer, 1), (reader, 1)]
    threads = [threading.Thread(target=until_end, args=(scene, *it, random.Random(rng.random())), daemon=True) for it in steps]
    for it in threads:
        it.start()
    for it in threads:
        it.join()
    teller.seen(scene, [teller.expected])
    return scene, scene.bad + books(scene, markers)


def run(program, seconds, room, count, rng, only=""):
    """Episodes of some ten seconds, one after another; at least one."""
    runs, killed, episodes, messages = collections.Counter(), 0, 0, 0
    end = time.monotonic() + seconds
    while not episodes or time.monotonic() + 3 < end:
        scene, bad = episode(program, f"{room}/box", rng, max(3, min(10, end - time.monotonic() - 1)), episodes % 2 == 0)
        count.check(f"rivals, episode {episodes + 1}", bad, [("box", f"{room}/box")])
        runs += scene.runs
        killed, episodes, messages = killed + scene.killed, episodes + 1, messages + len(scene.known)
    idle = [it for it in ("refile", "mark", "folder", "pick", "anno", "inc", "scan") if not runs[it, 0]]
    count.check("rivals: each got something done", [f"no {it} ended well" for it in idle])
    print(f"  {episodes} episodes, {messages} messages, {sum(runs.values())} runs, {killed} of the rivals killed")
    for command in ALLOWED:
        print(f"  {command}: " + ", ".join(f"{n} ended in {status}" for (it, status), n in sorted(runs.items()) if it == command))
