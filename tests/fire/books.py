"""What the parts share: mailboxes in temporary directories, looks at them, and the rules that a look is checked by."""
import collections
import os
import re
import shutil
import subprocess
import tempfile

NOBODY = 65534
LIMIT_OF_PRINTS = 30


class Count:
    """Counts checks that passed and failed, and keeps what belongs to a failure in a directory of its own."""

    def __init__(self):
        self.passed = self.failed = 0
        self.findings = None

    def check(self, name, complaints, keep=()):
        """Passes where there are no complaints; else prints the first ones and keeps copies of the directories and texts given."""
        if not complaints:
            self.passed += 1
            return True
        self.failed += 1
        if self.failed <= LIMIT_OF_PRINTS:
            more = f"; and {len(complaints) - 4} more" if len(complaints) > 4 else ""
            print(f"failed: {name}: {'; '.join(str(it) for it in complaints[:4])}{more}{self.kept(keep)}", flush=True)
        elif self.failed == LIMIT_OF_PRINTS + 1:
            print("further failures are only counted", flush=True)
        return False

    def kept(self, keep):
        """Copies what a failure needs to be looked at, and says where."""
        if not keep:
            return ""
        if self.findings is None:
            self.findings = tempfile.mkdtemp(prefix="mh-fire-findings-")
        where = f"{self.findings}/{self.failed}"
        os.makedirs(where)
        for name, what in keep:
            if isinstance(what, bytes):
                with open(f"{where}/{name}", "wb") as f:
                    f.write(what)
            elif os.path.isdir(what):
                shutil.copytree(what, f"{where}/{name}", symlinks=True)
        return f" (kept in {where})"


def message(n, lines=8):
    """The text of a message that no other number has."""
    head = f"From: user{n % 10}@many.example\nTo: bob@b.example\nSubject: message {n}\nDate: Tue, 02 Jun 2026 10:00:00 +0000\n\n"
    return (head + f"a line of message {n}\n" * lines).encode()


def drop_of(texts):
    """A drop of these messages."""
    return b"".join(b"From user@many.example Tue Jun  2 10:00:00 2026\n" + it + b"\n" for it in texts)


def read_drop(data):
    """The messages of a drop, which a line `From ` separates at the front or after an empty line; none where it doesn't begin so."""
    lines = data.split(b"\n")
    lines = [it + b"\n" for it in lines[:-1]] + ([lines[-1]] if lines[-1] else [])
    empty = (b"\n", b"\r\n")
    found, after_empty = [], True
    for line in lines:
        if after_empty and line.startswith(b"From "):
            found.append([])
            after_empty = False
            continue
        if not found:
            return None
        found[-1].append(line)
        after_empty = line in empty
    return [b"".join(it[:-1] if it and it[-1] in empty else it) for it in found]


def write(path, data):
    """Makes a file with these bytes."""
    with open(path, "wb") as f:
        f.write(data)


def read(path):
    """The bytes of a file; none where it isn't there."""
    try:
        with open(path, "rb") as f:
            return f.read()
    except FileNotFoundError:
        return b""


PROFILE = b"Path: Mail\nMailDrop: drop\nUnseen-Sequence: unseen\n"


class Box:
    """A home directory with its mail directory, and how the program is run there."""

    def __init__(self, program, home):
        self.program, self.home, self.mail, self.user = program, home, f"{home}/Mail", {}

    def make(self, folders, drop=b"", sequences=None, context=b"", profile=PROFILE):
        """Makes the mailbox: each folder has its texts by number."""
        shutil.rmtree(self.home, ignore_errors=True)
        os.makedirs(self.mail)
        write(f"{self.home}/.mh_profile", profile)
        write(f"{self.home}/drop", drop)
        if context:
            write(f"{self.mail}/context", context)
        for folder, texts in folders.items():
            os.makedirs(f"{self.mail}/{folder}", exist_ok=True)
            for n, text in texts.items():
                write(f"{self.mail}/{folder}/{n}", text)
            if sequences and folder in sequences:
                write(f"{self.mail}/{folder}/.mh_sequences", sequences[folder])
        return self

    def copy(self, home):
        """The same mailbox elsewhere."""
        shutil.rmtree(home, ignore_errors=True)
        shutil.copytree(self.home, home, symlinks=True)
        return Box(self.program, home)

    def own(self, user):
        """Gives all of it to a user, who runs the commands from then on."""
        self.user = {"user": user, "group": user, "extra_groups": []}
        for at, folders, files in os.walk(self.home):
            for it in [at] + [f"{at}/{name}" for name in folders + files]:
                os.chown(it, user, user, follow_symlinks=False)
        return self

    def environment(self):
        """What the program is told of its surroundings."""
        return {"HOME": self.home}

    def run(self, *words, timeout=60, **more):
        """Runs a command; its output and error output are bytes."""
        given = {"stdout": subprocess.PIPE, "stderr": subprocess.PIPE, "stdin": subprocess.DEVNULL, "cwd": self.home,
                 "env": self.environment(), **self.user}
        return subprocess.run([self.program, *words], timeout=timeout, **{**given, **more})

    def start(self, *words, before=(), **more):
        """Starts a command, behind these words of another program if any."""
        given = {"stdout": subprocess.PIPE, "stderr": subprocess.PIPE, "stdin": subprocess.DEVNULL, "cwd": self.home,
                 "env": self.environment(), **self.user}
        return subprocess.Popen([*before, self.program, *words], **{**given, **more})

    def folders(self):
        """The folders of the mail directory, by name."""
        found = []
        for at, names, _ in os.walk(self.mail):
            found += [os.path.relpath(f"{at}/{name}", self.mail) for name in names]
        return sorted(found)

    def look(self):
        """What stands in the mailbox now."""
        return Look(self)


class Look:
    """What stood in a mailbox at one moment: by folder the messages at numbers, backups, held and temporary names, and sequences."""

    def __init__(self, box):
        self.numbers, self.backups, self.held, self.temps, self.public = {}, {}, {}, {}, {}
        for folder in box.folders():
            self.look_at(folder, f"{box.mail}/{folder}")
        self.drop = read(f"{box.home}/drop")
        self.context = entries(read(f"{box.mail}/context"))
        self.mail_temps = [it for it in os.listdir(box.mail) if it.startswith(".mh_temp")]

    def look_at(self, folder, at):
        """Reads one folder."""
        self.numbers[folder], self.backups[folder], self.held[folder], self.temps[folder] = {}, {}, {}, []
        for name in os.listdir(at):
            if name.isdigit():
                self.numbers[folder][int(name)] = read(f"{at}/{name}")
            elif name[:1] == "," and name[1:].isdigit():
                self.backups[folder][int(name[1:])] = read(f"{at}/{name}")
            elif name.startswith(".mh_held_"):
                self.held[folder][name] = read(f"{at}/{name}")
            elif name.startswith(".mh_temp_"):
                self.temps[folder].append(name)
        self.public[folder] = sequences_in(entries(read(f"{at}/.mh_sequences")))

    def private(self, folder):
        """The private sequences of a folder, by name."""
        ending = f"-{folder}"
        named = {key[4:-len(ending)]: value for key, value in self.context.items() if key.startswith("atr-") and key.endswith(ending)}
        return sequences_in(named)

    def current(self):
        """The current folder, where the context names one."""
        return self.context.get("Current-Folder")

    def texts(self):
        """All messages that stand at numbers, of all folders."""
        return [text for folder in self.numbers.values() for text in folder.values()]

    def picture(self):
        """All of it, so that two looks can be compared; which run holds what isn't told."""
        held = {folder: sorted(name.rsplit("_", 1)[1] for name in names) for folder, names in self.held.items()}
        temps = {folder: len(names) for folder, names in self.temps.items()}
        return (self.numbers, self.backups, held, temps, self.public, self.drop, self.context, len(self.mail_temps))


def entries(text):
    """The fields of a text of sequences or of a context."""
    found = {}
    for line in text.decode("utf-8", "replace").splitlines():
        name, colon, value = line.partition(":")
        if colon:
            found[name] = value.strip()
    return found


def numbers_of(text):
    """The numbers of a list as `1 3-5`."""
    found = set()
    for item in text.split():
        first, _, last = item.partition("-")
        found |= set(range(int(first), int(last or first) + 1))
    return found


def sequences_in(fields):
    """Sequences by name, without empty ones."""
    named = {name: numbers_of(value) for name, value in fields.items()}
    return {name: numbers for name, numbers in named.items() if numbers}


def cut_to(sequences, numbers):
    """The sequences without numbers that are absent; `cur` may stand at an absent one."""
    cut = {name: found if name == "cur" else found & set(numbers) for name, found in sequences.items()}
    return {name: found for name, found in cut.items() if found}


# What anno puts in front of messages here.
NOTE = b"Noted: under fire\n"


def bare(text):
    """A message without the lines that anno put in front."""
    while text.startswith(NOTE):
        text = text[len(NOTE):]
    return text


# The rules. Each gives complaints, and none where the rule holds. A message with lines of anno in front is the same message.

def renumbered(looks, sorted_ones=()):
    """A number that led to one message never leads to another, but for those that are put in order."""
    bad = []
    for k, early in enumerate(looks):
        for late in looks[k + 1:]:
            for folder, texts in early.numbers.items():
                later = late.numbers.get(folder, {})
                bad += [f"number {n} of {folder} has another message" for n, text in texts.items()
                        if (folder, n) not in sorted_ones and n in later and bare(later[n]) != bare(text)]
    return bad


def torn(look, known):
    """What stands at a number, as a backup or held aside is whole: one of the known messages, byte for byte."""
    bad, known = [], {bare(text) for text in known}
    for kind in (look.numbers, look.backups, look.held):
        for folder, texts in kind.items():
            bad += [f"{name} of {folder} is no whole message" for name, text in texts.items() if bare(text) not in known]
    return bad


def moved(before, look, source, chosen):
    """Each message that wasn't chosen stands where it stood."""
    bad = []
    for folder, texts in before.numbers.items():
        for n, text in texts.items():
            if (folder != source or n not in chosen) and look.numbers.get(folder, {}).get(n) != text:
                bad.append(f"message {n} of {folder} was not chosen and has gone")
    return bad


def newcomers(before, look, into, texts, aside=()):
    """A number that wasn't there is above all that were, but for those of messages that may be held aside, of a folder to which messages go, and leads
    to one of these messages."""
    bad = []
    for folder, found in look.numbers.items():
        old = before.numbers.get(folder, {})
        top = max(set(old) - set(aside), default=0)
        for n in set(found) - set(old):
            if folder not in into:
                bad.append(f"{n} of {folder} is new")
            elif n <= top or found[n] not in texts:
                bad.append(f"{n} of {folder} is below {top} or is none of the messages that come")
    return bad


def left_aside(look, folders):
    """No temporary and no held name stands in these folders."""
    bad = []
    for folder in folders:
        bad += [f"{name} is left in {folder}" for name in list(look.held.get(folder, {})) + look.temps.get(folder, [])]
    return bad


def refiled_whole(before, look, source, chosen, into):
    """A message that was to move stands at its number, or held aside, or in each folder to which it goes; at most one is on its way."""
    bad, both = [], 0
    there = {folder: list(look.numbers.get(folder, {}).values()) for folder in into}
    held = list(look.held.get(source, {}).values())
    for n in chosen:
        text = before.numbers[source][n]
        here = look.numbers[source].get(n) == text or text in held
        if not here and not all(text in there[folder] for folder in into):
            bad.append(f"message {n} of {source} is lost")
        both += here and any(text in there[folder] for folder in into)
        bad += [f"message {n} stands twice in {folder}" for folder in into if there[folder].count(text) > 1]
    if both > 1:
        bad.append(f"{both} messages stand in {source} and where they go")
    if len(held) > 1:
        bad.append(f"{len(held)} messages are held aside at once")
    return bad


def copied_whole(before, look, source, chosen, into):
    """A message that was to be copied keeps its number, and stands at most once in each folder to which it goes."""
    bad = moved(before, look, source, ())
    for folder in into:
        there = list(look.numbers.get(folder, {}).values())
        bad += [f"message {n} stands twice in {folder}" for n in chosen if there.count(before.numbers[source][n]) > 1]
    return bad


def noted_whole(before, look, source, chosen):
    """A message that was to get lines stands at its number, or held aside as it was; at most one is on its way."""
    bad, held = [], list(look.held.get(source, {}).values())
    for n in chosen:
        text, here = before.numbers[source][n], look.numbers[source].get(n)
        if here is None and text not in held or here is not None and bare(here) != bare(text):
            bad.append(f"message {n} of {source} is lost")
    if len(held) > 1:
        bad.append(f"{len(held)} messages are held aside at once")
    return bad


def sorted_whole(before, look, source, chosen):
    """Each message that is put in order stands at a number or is held aside; it may stand twice where what was held aside went back above all."""
    there = collections.Counter(look.numbers[source].values()) + collections.Counter(look.held.get(source, {}).values())
    return [f"message {n} of {source} is lost" for n in chosen if not there[before.numbers[source][n]]]


def marks_went(before, look, source, chosen, made=()):
    """A message has no mark that it had not before; and one that was not to move has all that it had. The current message is a position, and no mark."""
    bad, was, there = [], before.numbers[source], look.numbers[source]
    for kind, of in (("public", lambda it: it.public.get(source, {})), ("private", lambda it: it.private(source))):
        olds = {name: {was[n] for n in found & was.keys()} for name, found in of(before).items() if name != "cur"}
        news = {name: {there[n] for n in found & there.keys()} for name, found in of(look).items() if name != "cur"}
        bad += [f"the {kind} mark {name} came to another message" for name, texts in news.items() if name not in made and texts - olds.get(name, set())]
        bad += [f"the {kind} mark {name} of message {n} is gone" for name, texts in olds.items() for n, text in was.items()
                if n not in chosen and text in texts - news.get(name, set())]
    return bad


def removed_whole(before, look, source, chosen, backup):
    """A message that was to be removed stands at its number, or is its number's backup where one is made."""
    bad = []
    for n in chosen:
        text = before.numbers[source][n]
        here = look.numbers[source].get(n) == text
        if not here and backup and look.backups[source].get(n) != text:
            bad.append(f"message {n} of {source} is lost")
    return bad


def taken_in(look, folder, drop):
    """A drop is whole, or it is empty and each of its messages stands in the folder, as often as in the drop."""
    if look.drop == drop:
        return []
    if look.drop:
        return ["the drop was cut to a part of it"]
    there = list(look.numbers.get(folder, {}).values())
    texts = read_drop(drop)
    return [f"{texts.count(text) - there.count(text)} messages of the cut drop are lost: {subject(text)}"
            for text in set(texts) if there.count(text) < texts.count(text)]


def subject(text):
    """The subject of a message."""
    found = re.search(rb"^Subject: (.*)$", text, re.M)
    return found.group(1).decode("utf-8", "replace") if found else ""


LINE = re.compile(r"^ *(\d+)[ +].{26}(message \d+)<<.*$")


def told(out):
    """The numbers and subjects of the lines of inc that were written whole."""
    lines = out.decode("utf-8", "replace").split("\n")[:-1]
    return [(int(it.group(1)), it.group(2)) for it in map(LINE.match, lines) if it]


def acknowledged(look, folder, out):
    """Each message whose line was written whole stands at the line's number."""
    there = look.numbers.get(folder, {})
    return [f"{what} was told at {n} and isn't there" for n, what in told(out) if subject(there.get(n, b"")) != what]


def sequences_kept(before, after, look, folder, settled, made=()):
    """The public sequences, all at once, are those before or those after, and so are the private ones, which are committed behind them.
    Absent numbers are left out once the folder is settled, and in any case before a new message can get one. So are the names in `made`."""
    numbers, were = look.numbers.get(folder, {}), before.numbers.get(folder, {})
    bad, is_new = [], {}
    for kind, of in (("public", lambda it: it.public.get(folder, {})), ("private", lambda it: it.private(folder))):
        found = {name: found for name, found in of(look).items() if name not in made}
        olds, new = [cut_to(of(before), were)], of(after)
        if settled:
            olds, new = [cut_to(olds[0], numbers)], cut_to(new, numbers)
        elif not any(marked & set(numbers) - set(were) for marked in of(before).values()):
            olds.append(of(before))
        if found not in olds and found != new:
            bad.append(f"the {kind} sequences of {folder} are {found}, neither {olds[0]} nor {new}")
        is_new[kind] = found == new and found not in olds
        is_new[f"old {kind}"] = found in olds and found != new
    if is_new["private"] and is_new["old public"]:
        bad.append(f"the private sequences of {folder} were committed before the public ones")
    return bad
