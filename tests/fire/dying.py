"""Dying: a command that changes something is killed (kill -9); then the next commands begin its folders, and the books are looked at."""
import collections
import os
import re
import shutil
import subprocess
import threading
import time

from books import (NOTE, Box, acknowledged, copied_whole, drop_of, left_aside, marks_went, message, moved, newcomers, noted_whole,
                   refiled_whole, removed_whole, renumbered, sorted_whole,
                   sequences_kept, taken_in, torn)

SOURCE = "inbox"
CHANGING_CALLS = "mkdir,openat,write,fsync,link,linkat,unlink,unlinkat,rename,renameat,renameat2,ftruncate,flock"
MENDED = "mended"


class Case:
    """One command on one mailbox: its words, the messages that it chooses, where messages go, and what kind of command it is."""

    def __init__(self, words, chosen=(), into=(), kind="marks", made=()):
        self.words, self.chosen, self.into, self.kind, self.made = words, set(chosen), list(into), kind, set(made)


def some(rng, numbers, large):
    """A few of these numbers; sometimes many."""
    most = len(numbers) if large or rng.random() < 0.1 else 8
    return sorted(rng.sample(numbers, rng.randint(1, min(most, len(numbers)))))


def as_words(numbers):
    """Numbers as words."""
    return [str(it) for it in numbers]


def inc(rng, numbers, large):
    """New mail is taken in."""
    return Case(["inc"], into=[SOURCE], kind="inc")


def refile_one(rng, numbers, large):
    """Messages move to one folder."""
    chosen = some(rng, numbers, large)
    return Case(["refile", *as_words(chosen), "+a", "-src", SOURCE], chosen, ["a"], "refile")


def refile_two(rng, numbers, large):
    """Messages move to two folders."""
    chosen = some(rng, numbers, large)
    return Case(["refile", *as_words(chosen), "+a", "+b", "-src", SOURCE], chosen, ["a", "b"], "refile")


def refile_new(rng, numbers, large):
    """Messages move to folders that aren't there, one of them below a folder."""
    chosen = some(rng, numbers, large)
    return Case(["refile", *as_words(chosen), "+new", "+a/deep", "-src", SOURCE], chosen, ["new", "a/deep"], "refile")


def refile_link(rng, numbers, large):
    """Messages are copied."""
    chosen = some(rng, numbers, large)
    return Case(["refile", "-link", *as_words(chosen), "+a", "-src", SOURCE], chosen, ["a"], "link")


def rmm(rng, numbers, large):
    """Messages are removed, and each becomes its number's backup."""
    chosen = some(rng, numbers, large)
    return Case(["rmm", f"+{SOURCE}", *as_words(chosen)], chosen, kind="rmm")


def rmm_unlink(rng, numbers, large):
    """Messages are removed without a backup."""
    chosen = some(rng, numbers, large)
    return Case(["rmm", f"+{SOURCE}", "-unlink", *as_words(chosen)], chosen, kind="unlink")


def mark_words(*more):
    """A mark of a few messages with these words."""
    return lambda rng, numbers, large: Case(["mark", f"+{SOURCE}", *as_words(some(rng, numbers, large)), *more])


def pick_words(*more):
    """A pick that marks what it finds."""
    return lambda rng, numbers, large: Case(["pick", f"+{SOURCE}", "-subject", str(rng.randint(0, 9)), "-or", "-subject", "message", *more])


def folder(rng, numbers, large):
    """A message becomes the current one, by words that choose the same one when the command is run again."""
    first, last = sorted(rng.choices(numbers, k=2))
    return Case(["folder", f"+{SOURCE}", rng.choice([str(first), f"{first}-{last}", "last", "todo", "todo:last"])])


def anno(rng, numbers, large):
    """Messages get a line in front."""
    chosen = some(rng, numbers, large)
    name, text = NOTE.decode().strip().split(": ")
    return Case(["anno", f"+{SOURCE}", *as_words(chosen), "-component", name, "-text", text, "-nodate"], chosen, [SOURCE], "anno")


def sortm(rng, numbers, large):
    """Messages come to stand in order, by their subjects as texts: message 12 before message 5."""
    chosen = some(rng, numbers, large)
    return Case(["sortm", f"+{SOURCE}", *as_words(chosen), "-textfield", "subject"], chosen, [SOURCE], "sortm")


def pack(rng, numbers, large):
    """Messages are numbered anew; those that stand at their places already stay."""
    return Case(["folder", f"+{SOURCE}", "-pack"], [n for place, n in enumerate(numbers, 1) if n != place], [SOURCE], "pack")


# The commands that change something. A later command is one entry more, with a kind of its own in `stands` where none of these fits it.
COMMANDS = {
    "inc": inc,
    "refile to one folder": refile_one,
    "refile to two folders": refile_two,
    "refile to new folders": refile_new,
    "refile -link": refile_link,
    "rmm": rmm,
    "rmm -unlink": rmm_unlink,
    "mark -add": mark_words("-sequence", "todo", "-sequence", "fresh", "-add"),
    "mark -add -nopublic": mark_words("-sequence", "mine", "-sequence", "own", "-add", "-nopublic"),
    "mark -delete": mark_words("-sequence", "todo", "-delete"),
    "mark -delete -nopublic": mark_words("-sequence", "mine", "-delete", "-nopublic"),
    "pick -sequence": pick_words("-sequence", "todo", "-sequence", "found"),
    "pick -sequence -nopublic": pick_words("-sequence", "mine", "-nopublic"),
    "folder": folder,
    "anno": anno,
    "sortm": sortm,
    "folder -pack": pack,
}

# The kinds by which messages get other numbers in their folder.
MOVING = ("sortm", "pack")


def ranged(rng, numbers):
    """A list of some of these numbers, as sequences have it."""
    return " ".join(as_words(sorted(rng.sample(numbers, rng.randint(1, len(numbers))))))


def template(program, home, rng, size, large):
    """A mailbox of so many messages with gaps between their numbers, sequences of both kinds, and a drop; and its numbers."""
    numbers = sorted(rng.sample(range(1, size + 10), size))
    inbox = {n: message(n, rng.randint(1, 40)) for n in numbers}
    others = {n: message(5000 + n) for n in range(1, 4)}
    drop = drop_of([message(7000 + n, rng.randint(1, 40)) for n in range(rng.randint(1, size if large or rng.random() < 0.1 else 8))])
    absent = f" {max(numbers) + rng.randint(1, 3)}" if rng.random() < 0.3 else ""
    sequences = {SOURCE: f"cur: {rng.choice(numbers)}\nold: {ranged(rng, numbers)}\ntodo: {ranged(rng, numbers)}{absent}\n".encode(),
                 "a": b"liked: 1-2\n"}
    context = f"Kept: yes\natr-mine-{SOURCE}: {ranged(rng, numbers)}\natr-his-a: 2-3\nCurrent-Folder: {rng.choice(['a', SOURCE])}\n".encode()
    box = Box(program, home).make({SOURCE: inbox, "a": others, "b": {}, "other": {1: message(6001)}}, drop, sequences, context)
    return box, numbers


class Scene:
    """A mailbox, a command on it, and what the undisturbed command makes of it, in what time and by which calls."""

    def __init__(self, program, room, name, rng, size, large):
        self.name, self.room = name, room
        self.box, numbers = template(program, f"{room}/box", rng, size, large)
        self.case = COMMANDS[name](rng, numbers, large)
        self.before = self.box.look()
        copy = self.box.copy(f"{room}/undisturbed")
        begin = time.monotonic()
        ran = copy.run(*self.case.words)
        self.whole = time.monotonic() - begin
        self.after = copy.look()
        self.status, self.err = ran.returncode, ran.stderr
        self.calls = self.known = None

    def calls_made(self):
        """The calls that change something, from the first lock on: each by its name, and how many of that name there were up to it."""
        if self.calls is None:
            copy, trace = self.box.copy(f"{self.room}/traced"), f"{self.room}/trace"
            copy.start(*self.case.words, before=["strace", "-qq", "-o", trace, "-e", f"trace={CHANGING_CALLS}"]).communicate()
            counts, self.calls = collections.Counter(), []
            with open(trace, errors="replace") as f:
                for call in re.findall(r"^(\w+)\(", f.read(), re.M):
                    counts[call] += 1
                    if counts["flock"]:
                        self.calls.append((call, counts[call]))
        return self.calls

    def texts(self):
        """All messages that are known."""
        if self.known is None:
            self.known = set(self.before.texts()) | set(self.after.texts())
        return self.known


def late(rng, count):
    """A place among so many: any, or one of the last."""
    return rng.randrange(count) if rng.random() < 0.6 else max(0, count - 1 - rng.randrange(12))


def die_by_time(scene, box, rng):
    """Kills the command after a random part of its time."""
    process = box.start(*scene.case.words)
    wait = rng.uniform(0, scene.whole)
    time.sleep(wait)
    process.kill()
    return process.communicate()[0], f"after {wait * 1000:.1f} ms"


def die_by_lines(scene, box, rng):
    """Kills inc a little after it wrote a line."""
    process = box.start(*scene.case.words)
    guard = threading.Timer(60, process.kill)
    guard.start()
    lines = rng.randint(1, 2 + len(scene.after.numbers[SOURCE]) - len(scene.before.numbers[SOURCE]))
    out = b"".join(process.stdout.readline() for _ in range(lines))
    guard.cancel()
    time.sleep(rng.uniform(0, scene.whole / 5))
    process.kill()
    return out + process.communicate()[0], f"after line {lines}"


def die_by_names(scene, box, rng):
    """Kills the command once a certain one of its messages has left its number, or stands where it goes."""
    process = box.start(*scene.case.words)
    chosen = sorted(scene.case.chosen)
    k = rng.randrange(len(chosen))
    if scene.case.kind == "link":
        new = sorted(set(scene.after.numbers["a"]) - set(scene.before.numbers["a"]))
        path, there = f"{box.mail}/a/{new[k]}", True
    else:
        path, there = f"{box.mail}/{SOURCE}/{chosen[k]}", False
    while process.poll() is None and os.path.exists(path) != there:
        pass
    process.kill()
    return process.communicate()[0], f"at message {k + 1}"


def die_by_call(scene, box, rng):
    """Kills the command when it enters a certain call that changes something: the call is not made. Needs strace."""
    call, k = scene.calls_made()[late(rng, len(scene.calls_made()))]
    before = ["strace", "-qq", "-o", "/dev/null", "-e", f"trace={call}", "-e", f"inject={call}:signal=KILL:when={k}"]
    process = box.start(*scene.case.words, before=before)
    return process.communicate(timeout=60)[0], f"at {call} {k}"


def ways(case):
    """The ways in which this command can be killed here."""
    found = [die_by_time, die_by_time]
    if case.kind == "inc":
        found += [die_by_lines, die_by_lines]
    if case.chosen:
        found += [die_by_names]
    if shutil.which("strace"):
        found += [die_by_call, die_by_call]
    return found


def stands(scene, look, case):
    """Where each message must stand by the kind of the command, dead or not."""
    before = scene.before
    comes = {before.numbers[SOURCE][n] for n in case.chosen}
    if case.kind == "inc":
        comes = set(scene.after.texts()) - set(before.texts())
        return moved(before, look, SOURCE, ()) + newcomers(before, look, case.into, comes) + taken_in(look, SOURCE, before.drop)
    if case.kind in MOVING:
        return (moved(before, look, SOURCE, case.chosen) + newcomers(before, look, case.into, comes, case.chosen)
                + sorted_whole(before, look, SOURCE, case.chosen))
    leaves = case.kind in ("refile", "rmm", "unlink", "anno")
    bad = moved(before, look, SOURCE, case.chosen if leaves else ()) + newcomers(before, look, case.into, comes)
    if case.kind == "anno":
        bad += noted_whole(before, look, SOURCE, case.chosen)
    elif case.kind == "refile":
        bad += refiled_whole(before, look, SOURCE, case.chosen, case.into)
    elif case.kind == "link":
        bad += copied_whole(before, look, SOURCE, case.chosen, case.into)
    elif case.kind in ("rmm", "unlink"):
        bad += removed_whole(before, look, SOURCE, case.chosen, case.kind == "rmm")
    return bad


def slots(case):
    """The numbers that may lead to another message."""
    if case.kind == "pack":
        return {(SOURCE, n) for n in range(min(case.chosen, default=0), 2 * max(case.chosen, default=0))}
    return {(SOURCE, n) for n in case.chosen} if case.kind == "sortm" else ()


def books(scene, looks, out, settled):
    """All rules for the last of the looks, of which the first is the one before the command."""
    look = looks[-1]
    bad = renumbered(looks, slots(scene.case)) + torn(look, scene.texts()) + stands(scene, look, scene.case)
    if scene.case.kind == "inc":
        bad += acknowledged(look, SOURCE, out)
    if settled:
        bad += left_aside(look, look.numbers)
    for folder in look.numbers:
        if scene.case.kind in MOVING and folder == SOURCE:
            bad += marks_went(scene.before, look, folder, scene.case.chosen, [MENDED])
        else:
            bad += sequences_kept(scene.before, scene.after, look, folder, settled, [MENDED])
    if not settled and look.current() not in (scene.before.current(), scene.after.current()):
        bad.append(f"the current folder is {look.current()}")
    if look.context.get("Kept") != "yes":
        bad.append("an entry of the context is lost")
    return bad


def mend(box, look, case):
    """The next command begins each folder of the command, and the context is committed; it may only say that a folder is empty."""
    bad = []
    for folder in ["other", SOURCE, *(it for it in case.into if it in look.numbers and it != SOURCE)]:
        ran = box.run("mark", f"+{folder}", "all", "-sequence", MENDED)
        empty = ran.returncode == 1 and ran.stderr == b"mh: no messages in range: all\n"
        if ran.returncode != 0 and not empty:
            bad.append(f"the mark that mends {folder} ended in {ran.returncode}: {ran.stderr}")
    left = box.look().mail_temps
    return bad + [f"{name} is left in the mail directory" for name in left]


def again(scene, box, looks):
    """The command is run again on what is left, and comes to what it would have come to at once."""
    case, look = scene.case, looks[-1]
    words = [it for it in case.words if not it.isdigit() or int(it) not in case.chosen or int(it) in look.numbers[SOURCE]]
    if case.kind in ("refile", "rmm", "unlink") and not case.chosen & set(look.numbers[SOURCE]):
        return []
    ran = box.run(*words)
    emptied = case.kind == "inc" and not look.drop
    if (ran.returncode, ran.stderr) != ((1, b"mh: no mail to incorporate\n") if emptied else (scene.status, scene.err)):
        return [f"the command run again ended in {ran.returncode}: {ran.stderr}"]
    end = box.look()
    return renumbered(looks + [end], slots(case)) + torn(end, scene.texts()) + left_aside(end, end.numbers) + ended(scene, look, end)


def ordered(look, numbers):
    """The messages of these numbers stand in the order of their subjects."""
    keys = [re.search(rb"^Subject: (.*)$", look.numbers[SOURCE][n], re.M).group(1).replace(b" ", b"") for n in numbers]
    return [] if keys == sorted(keys) else [f"the messages {numbers} do not stand in order"]


def packed(before, look):
    """The numbers are those from 1 on; and where no message stands twice they are in the order that they had."""
    numbers, texts = sorted(look.numbers[SOURCE]), [before.numbers[SOURCE][n] for n in sorted(before.numbers[SOURCE])]
    bad = [] if numbers == list(range(1, len(numbers) + 1)) else [f"the numbers are {numbers}"]
    return bad + (["the messages are not in their order"] if len(numbers) == len(texts) and [look.numbers[SOURCE][n] for n in numbers] != texts else [])


def ended(scene, look, end):
    """What the command run again must have come to. A message may stand twice then where it went."""
    case = scene.case
    leaves = case.kind in ("refile", "rmm", "unlink")
    bad = moved(scene.before, end, SOURCE, case.chosen if leaves else ())
    if case.kind == "inc":
        there, were = list(end.numbers[SOURCE].values()), list(look.numbers[SOURCE].values())
        for text in set(scene.after.texts()) - set(scene.before.texts()):
            if there.count(text) != were.count(text) + (1 if look.drop else 0):
                bad.append(f"a message stands {there.count(text)} times in the folder")
        bad += ["the drop is not empty"] if end.drop else []
    elif case.kind in ("refile", "link"):
        texts = [scene.before.numbers[SOURCE][n] for n in case.chosen]
        bad += [f"a message is not in {folder}" for folder in case.into for text in texts if text not in end.numbers[folder].values()]
    if case.kind in MOVING:
        bad = (moved(scene.before, end, SOURCE, case.chosen) + sorted_whole(scene.before, end, SOURCE, case.chosen)
               + marks_went(scene.before, end, SOURCE, case.chosen, [MENDED]))
        return bad + (packed(scene.before, end) if case.kind == "pack" else ordered(end, sorted(case.chosen & set(end.numbers[SOURCE]))))
    if case.kind == "anno":
        bad = moved(scene.before, end, SOURCE, case.chosen) + noted_whole(scene.before, end, SOURCE, case.chosen)
        bad += [f"message {n} has no line" for n in case.chosen if not end.numbers[SOURCE].get(n, b"").startswith(NOTE)]
    if leaves:
        bad += [f"message {n} did not leave" for n in case.chosen if n in end.numbers[SOURCE]]
    if case.kind == "rmm":
        bad += removed_whole(scene.before, end, SOURCE, case.chosen, True)
    if case.kind == "marks":
        bad += sequences_kept(scene.after, scene.after, end, SOURCE, True, [MENDED])
    return bad


def death(scene, rng):
    """One death: what complaints there are, how the command was killed, and whether that was in the midst of its work."""
    box = scene.box.copy(f"{scene.room}/dying")
    out, how = rng.choice(ways(scene.case))(scene, box, rng)
    first = box.look()
    midst = first.picture() not in (scene.before.picture(), scene.after.picture())
    box.copy(f"{scene.room}/dead")
    bad = books(scene, [scene.before, first], out, False)
    bad += mend(box, first, scene.case)
    mended = box.look()
    bad += books(scene, [scene.before, first, mended], out, True)
    bad += again(scene, box, [scene.before, first, mended])
    return bad, how, midst


def size_of(rng, seconds):
    """How many messages a mailbox has: mostly thirty, and some in an hour up to three hundred."""
    if seconds < 300 or rng.random() < 0.97:
        return 30, False
    return rng.randint(60, 300), True


def run(program, seconds, room, count, rng, only=""):
    """Kills commands, one after another, until the time is over; each at least three times."""
    end = time.monotonic() + seconds
    deaths, midst = collections.Counter(), collections.Counter()
    batch, names = 3 if seconds < 300 else 8, [it for it in COMMANDS if it.startswith(only)]
    while time.monotonic() < end or len(deaths) < len(names):
        for name in names:
            if time.monotonic() > end and name in deaths:
                continue
            deaths[name] += 0
            scene = Scene(program, room, name, rng, *size_of(rng, seconds))
            if not count.check(f"{name}: undisturbed", undisturbed(scene)):
                continue
            for _ in range(batch):
                try:
                    bad, how, in_midst = death(scene, rng)
                except subprocess.TimeoutExpired as fault:
                    bad, how, in_midst = [f"a command hangs: {fault}"], "", False
                deaths[name] += 1
                midst[name] += in_midst
                keep = [(it, f"{room}/{it}") for it in ("box", "dead", "dying")] + [("words", " ".join(scene.case.words).encode())]
                count.check(f"{name}, killed {how}", bad, keep)
    for name in names:
        print(f"  {name}: {deaths[name]} deaths, {midst[name]} in the midst")
    print(f"  {sum(deaths.values())} deaths, {sum(midst.values())} in the midst")


def undisturbed(scene):
    """The command ends well where nobody kills it, and the rules hold of what it leaves."""
    bad = [] if scene.status == 0 else [f"status {scene.status}: {scene.err}"]
    bad += renumbered([scene.before, scene.after], slots(scene.case)) + stands(scene, scene.after, scene.case)
    if scene.case.kind == "pack":
        bad += packed(scene.before, scene.after)
    return bad + left_aside(scene.after, scene.after.numbers)
