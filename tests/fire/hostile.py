"""Hostile bytes: small good inputs are mutated by a seeded generator; no crash, no hang, a status of the table, and nothing lost."""
import collections
import os
import random
import re
import shutil
import subprocess
import time

from books import NOBODY, Box, drop_of, message, read_drop, write

LONGEST = 10
# The top call's line, and one of the program's behind it.
ERROR_LINE = re.compile(rb"(mh: [ -~]+\n){1,2}")
FAULT_LINE = re.compile(rb"mh: (fault of files\n(mh: [^\x00-\x1f\x7f]+\n)?|fault of output\n|no setting\n|word \d+ is no UTF-8 text\n)")

# Pieces that mean something to the program, by what is mutated.
PIECES = {
    "mail": [b"From ", b"\n\nFrom ", b"\r\n", b"\n", b"\n\n", b"\0", b"\xff", b"\xc3\xa9", b":", b" ", b"\t", b">From ",
             b"=?UTF-8?Q?=C3=A9?=", b"=?iso-8859-1?B?6Q==?=", b"=?UTF-8?B?",
             b"?=", b"Subject:", b"Date: Tue, 02 Jun 2026 10:00:00 +0000", b"Date: 99 Foo 0000", b"From: \"A \\\" B\" <a@b> (c (d))", b"(",
             b")", b"<", b">", b"\"", b"@", b",",
             b"Content-Type: multipart/mixed; boundary=\"x\"", b"--x\n", b"--x--\n", b"Content-Transfer-Encoding: base64", b"a" * 1200],
    "sequences": [b"cur: 1\n", b"todo: 1-3\n", b":", b"-", b" ", b"\t", b"\n ", b"0", b"007", b"999999", b"1000000", b"1-999999", b"3-1",
                  b"99999999999999999999999", b"\0", b"\xff", b"cur",
                  b"all", b"first", b"x" * 70, b"\r", b"1 2 3 ", b"todo", b"\n"],
    "context": [b"Current-Folder: ", b"inbox", b"a", b"+", b"..", b"atr-", b"atr-mine-inbox: 1-3\n", b"atr-mine-", b":", b"\n", b"\n ",
                b" ", b"-", b"1-9", b"%2F", b"%", b"\0", b"\xff", b"\r",
                b"x" * 300],
    "profile": [b"Path: ", b"Mail", b"MailDrop: drop", b"Inbox: ", b"Unseen-Sequence: ", b"Sequence-Negation: not", b"scan: -width 20",
                b"inc: -silent", b"mark: -list", b"rmm: 1", b"refile: +a",
                b"pick: -subject x", b"folder: 1", b"folder: -pack", b"mhlist: -part 1", b"mhstore: -clobber always", b"mhbuild: letter", b"anno: -component x", b"-format %(msg)", b":", b"\n", b"\n ", b" ", b"\0", b"\xff", b"cur", b"all", b"x" * 300],
    "format": [b"%(", b"%{", b"%<", b"%?", b"%|", b"%>", b"%;", b"%%", b"\\", b"\\n", b"}", b")", b"(", b"{", b" ", b"%4(msg)",
               b"%{subject}", b"%<{from}x%|y%>", b"%020(size)", b"%-9(msg)",
               b"%99999999999(msg)", b"9223372036854775807", b"-9223372036854775808", b"%(divide 0)", b"%(modulo 0)",
               b"%(plus 9223372036854775807)", b"%(tws{date})", b"%(clock{date})",
               b"%(friendly{from})", b"%(decode{subject})", b"%(trim{body})", b"%(putstrf{subject})", b"%(lit a)", b"%(void(",
               b"%(match x)", b"%(zero(num", b"%{body}", b"\n", b"\xff", b"x" * 400],
    "pattern": [b"[", b"]", b"[^", b"^", b"$", b"*", b".", b"\\", b"a-z", b"[z-a]", b"[]", b"[a", b"\\\\", b"message", b"M", b"**", b".*",
                b"^^", b"$$", b"\xff", b"a" * 130, b"today", b"yesterday",
                b"-3", b"2026-06-02", b"31 may 2026", b"friday", b"99", b" ", b"+0000", b"10:00"],
    "draft": [b"#begin\n", b"#begin digest\n", b"#begin x\n", b"#end\n", b"#forw\n", b"#forw +a 1\n", b"#forw all\n", b"#forw +none\n", b"#text/plain drop\n",
              b"#image/png; a=\"b c\" (d) <e@f> [g] {h} drop\n", b"#text/plain none\n", b"##x\n", b"#", b"# x\n", b"#off\n", b"MIME-Version: 1.0\n",
              b"Content-Type: text/plain\n", b"Subject: t\n", b" more\n", b"\n", b"\n\n", b"\r\n", b"\0", b"\xff", b"\xc3\xa9", b"--mh-", b"--", b"From ",
              b";", b"=", b"\"", b"\\", b"<", b">", b"[", b"]", b"{", b"}", b"(", b")", b"/", b" \t", b"a" * 1200],
    "word": [b"1", b"3", b"0", b"007", b"999999", b"1000000", b"first", b"last", b"cur", b"prev", b"next", b"all", b"-", b":", b"+",
             b"todo", b"nottodo", b":first", b":next", b"1-3", b"3-1", b":-2",
             b":+999999", b"x" * 300, b"+inbox", b"+a", b"+a.b", b"+..", b"@a", b"", b"99999999999999999999", b"--", b"-sequence",
             b"-nopublic", b"-list", b"-zero", b"-delete", b"-unlink",
             b"-link", b"-src", b"-width", b"-format", b"-subject", b"-lbrace", b"-rbrace", b"-not", b"-or", b"-and", b"-before",
             b"-search", b"--x-y", b"-pack", b"-part", b"1.2", b"-clobber", b"always"],
}


def mutated(rng, data, kind):
    """The bytes with a few changes."""
    for _ in range(rng.choice([1, 1, 2, 3, 5, 9])):
        at, to = sorted((rng.randint(0, len(data)), rng.randint(0, len(data))))
        to = min(to, at + rng.choice([1, 2, 8, 60]))
        act = rng.randrange(6)
        if act == 0:
            data = data[:at] + data[to:]
        elif act == 1:
            data = data[:at] + data[at:to] * rng.choice([2, 3, 40]) + data[to:]
        elif act == 2:
            data = data[:at] + bytes([rng.randrange(256)]) + data[at + 1:]
        elif act == 3:
            data = data[:at] + data[at:to][::-1] + data[to:]
        else:
            data = data[:at] + rng.choice(PIECES[kind]) * rng.choice([1, 1, 1, 1, 50]) + data[at if act == 4 else to:]
    return data[:200_000]


def grown(rng, kind, most=6):
    """Bytes put together from pieces."""
    return b"".join(rng.choice(PIECES[kind]) for _ in range(rng.randint(0, most)))


def word(rng, kind, good):
    """A hostile word: a piece, several, or a good one with changes or without; a word has no zero byte."""
    data = rng.choice([lambda: rng.choice(PIECES[kind]), lambda: grown(rng, kind), lambda: mutated(rng, good, kind), lambda: good])()
    return data.replace(b"\0", b"0")[:60_000]


def harmless(data):
    """The bytes without slashes and names of the directory above: a mail directory stays below the home directory."""
    return data.replace(b"/", b"_").replace(b"..", b"__")


class Case:
    """One hostile input: the files of a home directory, and the words."""

    def __init__(self, rng):
        mail = [message(n, 3) for n in range(1, 5)]
        self.files = {".mh_profile": b"Path: Mail\nMailDrop: drop\nUnseen-Sequence: unseen\nSequence-Negation: not\n",
                      "drop": drop_of([message(7001, 2), message(7002, 2)]),
                      "Mail/context": b"Current-Folder: inbox\natr-mine-inbox: 2-3\n", "Mail/inbox/.mh_sequences": b"cur: 2\ntodo: 1 3\n",
                      "Mail/inbox/1": mail[0], "Mail/inbox/2": mail[1], "Mail/inbox/3": mail[2], "Mail/a/1": mail[3]}
        self.words, self.exact_drop = [], False

    def make(self, program, home):
        """The mailbox of the case."""
        box = Box(program, home)
        shutil.rmtree(home, ignore_errors=True)
        os.makedirs(home)
        for name, data in self.files.items():
            os.makedirs(os.path.dirname(f"{home}/{name}"), exist_ok=True)
            write(os.fsencode(f"{home}/") + (name if isinstance(name, bytes) else name.encode()), data)
        return box.own(NOBODY) if os.getuid() == 0 else box


def some_command(rng):
    """A command that reads all that is there."""
    return rng.choice([["scan"], ["scan", "+inbox"], ["scan", "todo"], ["scan", "nottodo", "mine"], ["mark", "-list"],
                       ["folder"], ["folder", "todo"], ["folder", "+inbox", "2-3"], ["folder", "-pack"],
                       ["mhlist"], ["mhlist", "all"], ["mhlist", "todo", "-part", "1"], ["mhstore"], ["mhstore", "all", "-clobber", "always"], ["mhstore", "2", "-part", "1.2"],
                       ["sortm"], ["sortm", "todo", "-textfield", "subject"], ["anno", "-component", "Noted"], ["anno", "todo", "-component", "Noted", "-text", "under fire", "-nodate"],
                       ["mark", "1", "-sequence", "todo"],
                       ["mark", "+inbox", "all", "-delete", "-sequence", "todo"], ["mark", "2", "-sequence", "mine", "-nopublic"],
                       ["pick", "-subject", "message"],
                       ["pick", "-from", "user1", "-or", "-date", "2026", "-sequence", "found"],
                       ["pick", "-after", "1 jan 2020", "-before", "today"], ["pick", "-search", "line$"],
                       ["pick", "--x", "y", "-or", "-not", "-to", "bob"], ["rmm", "todo"], ["rmm"], ["refile", "+a"],
                       ["refile", "todo", "+a", "+b"], ["refile", "-link", "all", "+a", "-src", "inbox"],
                       ["inc"], ["inc", "+a"]])


def hostile_drop(rng):
    """A drop."""
    case = Case(rng)
    case.files["drop"] = mutated(rng, case.files["drop"], "mail")
    case.words, case.exact_drop = ["inc"], True
    return case


def hostile_message(rng):
    """A message."""
    case = Case(rng)
    case.files["Mail/inbox/2"] = mutated(rng, case.files["Mail/inbox/2"], "mail")
    case.words = some_command(rng)
    return case


def hostile_sequences(rng):
    """The sequences of a folder."""
    case = Case(rng)
    case.files["Mail/inbox/.mh_sequences"] = mutated(rng, case.files["Mail/inbox/.mh_sequences"], "sequences")
    case.words = some_command(rng)
    return case


def hostile_context(rng):
    """The context."""
    case = Case(rng)
    case.files["Mail/context"] = harmless(mutated(rng, case.files["Mail/context"], "context"))
    case.words = some_command(rng)
    return case


def hostile_profile(rng):
    """The profile."""
    case = Case(rng)
    case.files[".mh_profile"] = harmless(mutated(rng, case.files[".mh_profile"], "profile"))
    case.words = some_command(rng)
    return case


def hostile_format(rng):
    """A format."""
    case = Case(rng)
    good = b"%4(msg)%<(cur)+%| %>%<{date}%02(mon{date})/%02(mday{date})%|00/00%> %<{from}%17(friendly{from})%> %{subject}%<{body}<<%{body}%>"
    case.words = [rng.choice(["scan", "inc"]), "-format", word(rng, "format", good), "-width", rng.choice(["80", "1", "10000"])]
    return case


def hostile_pattern(rng):
    """Patterns, dates and expressions."""
    case = Case(rng)
    case.words = ["pick"]
    for _ in range(rng.choice([1, 1, 1, 2, 3])):
        case.words += rng.choice([[], [], ["-not"], ["-lbrace"], ["-rbrace"]])
        tests = rng.choice([["-subject", "-from", "-search", "--x-y", "-date", "-to", "-cc"], ["-before", "-after"], ["-datefield"]])
        good = b"[Mm]essage.*[0-9]$" if len(tests) > 2 else b"2026-06-02" if len(tests) > 1 else b"date"
        case.words += [rng.choice(tests), word(rng, "pattern", good), *rng.choice([[], [], ["-or"], ["-and"], ["-rbrace"]])]
    return case


def hostile_draft(rng):
    """A draft."""
    case = Case(rng)
    good = b"To: ann@a.example\nSubject: t\n\nhello\n#begin alternative\n#text/plain [all of it] drop\n#forw 1-2\n#end\nbye\n"
    case.files["letter"] = mutated(rng, good, "draft")
    case.words = ["mhbuild", "letter"]
    return case


def hostile_words(rng):
    """Words that name messages, folders and switches."""
    case = Case(rng)
    case.words = [rng.choice(["scan", "mark", "pick", "rmm", "refile", "inc", "folder", "anno", "sortm", "mhlist", "mhstore", "mhbuild"])]
    for _ in range(rng.choice([1, 1, 1, 2, 3, 5])):
        case.words.append(word(rng, "word", rng.choice([b"1-3", b"last:2", b"todo:next", b"+inbox", b"cur"])))
    case.words = ["drop" if before == "-file" else it for before, it in zip([""] + case.words, case.words)]
    return case


def hostile_names(rng):
    """Names in a folder that are no messages' names, or that a dead run left."""
    case = Case(rng)
    run = "%032x" % rng.randrange(2 ** 128)
    names = [b"007", b"0", b"1000000", b"999999", b",1", b",", b"1x", b"-1", b" 4", b"4 ", b"4\n", b"\xff", b"x" * 255, b"caf\xc3\xa9",
             b".mh_held_", b".mh_temp_", b".mh_lock2", b"context",
             b".mh_held_" + run.encode() + b"_5", b".mh_held_" + run.encode() + b"_1", b".mh_held_" + run.encode() + b"_999999",
             b".mh_held_" + run.encode() + b"_007",
             b".mh_held_" + run.upper().encode() + b"_6", b".mh_temp_" + run.encode() + b"_18446744073709551615",
             b".mh_temp_" + run.encode() + b"_18446744073709551616", b".mh_temp_x_1"]
    for name in rng.sample(names, rng.randint(1, 4)):
        case.files[b"Mail/inbox/" + name] = message(rng.randint(100, 999), 1)
    case.words = some_command(rng)
    return case


KINDS = {"drop": hostile_drop, "message": hostile_message, "sequences": hostile_sequences, "context": hostile_context,
         "profile": hostile_profile, "format": hostile_format,
         "pattern": hostile_pattern, "draft": hostile_draft, "words": hostile_words, "names": hostile_names}


def standing(home):
    """The texts that stand as messages, backups or held aside anywhere below the home directory, or in a drop, and how often."""
    found = collections.Counter()
    for at, _, files in os.walk(os.fsencode(home)):
        for name in files:
            if re.fullmatch(rb",?[1-9]\d*|\.mh_held_[0-9a-f]{32}_\d+", name):
                with open(at + b"/" + name, "rb") as f:
                    found[f.read()] += 1
            elif not name.startswith(b".mh_temp_"):
                with open(at + b"/" + name, "rb") as f:
                    found.update(read_drop(f.read()) or [])
    return found


def stands(text, texts):
    """Whether a message stands among these, with lines of anno in front or none."""
    return text in texts or any(it.endswith(text) and re.fullmatch(rb"([!-9;-~]+:.*\n)*", it[: len(it) - len(text)]) for it in texts)


def removes(kind, words):
    """Whether the words may ask for messages to be removed without a backup, or for a backup that replaces another."""
    return words[0] == "rmm" and (kind == "names" or any(os.fsencode(it).startswith(b"-") for it in words))


def ended_well(kind, ran):
    """The status is one of the table, with its line: alone no lock is met and nothing changes meanwhile."""
    if ran.returncode < 0:
        return [f"died by signal {-ran.returncode}"]
    if ran.returncode == 0:
        return [] if ran.stderr == b"" else [f"status 0 with {ran.stderr[:200]}"]
    if ran.returncode == 2 and FAULT_LINE.fullmatch(ran.stderr) or ran.returncode == 1 and ERROR_LINE.fullmatch(ran.stderr):
        return []
    return [f"status {ran.returncode}: {ran.stderr[:200]}"]


def drop_taken(case, box, ran):
    """A drop that is one was taken in, message by message, above the highest number, and is empty; another is refused and stays."""
    data = case.files["drop"]
    wanted = read_drop(data)
    look = box.look()
    if not wanted:
        line = b"mh: not a mail drop\n" if data else b"mh: no mail to incorporate\n"
        return [] if (ran.returncode, ran.stderr, look.drop) == (1, line, data) else [f"a drop that is none: {ran.returncode} {ran.stderr}"]
    found = [look.numbers["inbox"][n] for n in sorted(look.numbers["inbox"]) if n > 3]
    if ran.returncode != 0 or found != wanted or look.drop:
        return [f"{len(found)} messages for {len(wanted)}, status {ran.returncode}, {len(look.drop)} bytes left in the drop"]
    return []


def draft_kept(case, box, ran):
    """The draft stands under its name, or under that of its original where its message has its name."""
    name = f"{box.home}/,letter.orig" if ran.returncode == 0 else f"{box.home}/letter"
    with open(name, "rb") as f:
        return [] if f.read() == case.files["letter"] else ["the draft is not kept"]


def tried(program, room, kind, seed, count, statuses):
    """One hostile input, by its seed."""
    rng = random.Random(seed)
    case = KINDS[kind](rng)
    box = case.make(program, f"{room}/box")
    before = standing(box.home)
    bad = []
    try:
        ran = box.run(*case.words, timeout=LONGEST)
        statuses[kind, ran.returncode] += 1
        bad += ended_well(kind, ran)
        bad += drop_taken(case, box, ran) if case.exact_drop else []
        bad += draft_kept(case, box, ran) if kind == "draft" else []
        if not removes(kind, case.words):
            after = standing(box.home)
            bad += [f"a message of {len(text)} bytes is lost" for text in before if not stands(text, after)]
    except subprocess.TimeoutExpired:
        bad.append(f"it hangs: more than {LONGEST} s")
    if bad:
        case.make(program, f"{room}/input")
    count.check(f"hostile {kind}, seed {seed!r}", bad, [("input", f"{room}/input"), ("words", repr(case.words).encode())])


def run(program, seconds, room, count, rng, only=""):
    """Hostile inputs of each kind in turn, until the time is over; at least thirty of each."""
    end, statuses, k = time.monotonic() + seconds, collections.Counter(), 0
    first = rng.randrange(10 ** 9)
    while time.monotonic() < end or k < 30:
        for kind in KINDS:
            tried(program, room, kind, f"{first}-{k}", count, statuses)
        k += 1
    for kind in KINDS:
        print(f"  {kind}: " + ", ".join(f"{n} ended in {status}" for (it, status), n in sorted(statuses.items()) if it == kind))
    print(f"  {sum(statuses.values())} inputs")
