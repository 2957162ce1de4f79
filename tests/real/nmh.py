"""Where nmh is installed: what its commands write and leave, beside this program's, on plain messages. nmh.py PROGRAM DIRECTORY.
It prints what differs, which docs/COMING-FROM-NMH.md explains, and judges nothing."""
import os
import shlex
import shutil
import subprocess
import sys

PROGRAM, ROOM = sys.argv[1:]
PLACES = [place for place in ("/usr/bin/mh", "/usr/local/nmh/bin") if os.path.exists(f"{place}/scan")]
ANN = {"TZ": "UTC", "LC_ALL": "C.UTF-8", "USER": "ann", "LOGNAME": "ann"}

# Formats of functions that both have.
FORMATS = {
    "numbers and sizes": "%4(msg) %6(size) %(cur)%(unseen) %03(msg)%2(msg)",
    "parts of dates": "%(sec{date}) %(min{date}) %(hour{date}) %(mday{date}) %(mon{date}) %(year{date}) %(wday{date}) %(day{date}) %(weekday{date}) %(month{date}) %(lmonth{date}) %(tzone{date})",
    "a date's text": "%(tws{date})",
    "seconds": "%(clock{date})",
    "parts of addresses": "%(addr{from})|%(pers{from})|%(note{from})|%(mbox{from})|%(host{from})|%(friendly{from})",
    "addresses of several": "%(addr{to})|%(friendly{to})|%(friendly{cc})",
    "numbers": "%(msg)%(plus 7) %(msg)%(divide 7) %(msg)%(modulo 7) %(num -3) %3(num -3) %<(eq 3)three%|%<(gt 5)more%?(ne 2)other%>%>",
    "texts": "%(comp{subject}) %(lit one) %(strlen)%<(match essag) match%>%<(amatch Mess) begins%>%<(null{x-none}) none%>%<(nonnull{subject}) some%>",
    "trim": "%(lit one)%(trim)",
    "printing": "%10(putstrf{subject})|%(putstr{subject})|%5(putnumf(msg))|%(putnum(msg))",
    "putlit": "%(putlit{subject})",
    "widths of fields": "%20{subject}|%5{subject}|%1(msg)|",
    "a width below zero": "%-20{subject}|",
    "conditionals": "%<{cc}cc%?{to}to%|none%> %<{replied}-%?{encrypted}E%|.%> %<(zero(num 0))zero%>%<(nonzero(num 2))two%>",
    "bodies": "%{body}|",
    "quotes": "%(unquote(friendly{from})) %(decode{subject})",
    "escapes": "a\\tb%% \\\\ %(msg)",
    "how wide": "%(width) %(charleft) %(msg) %(charleft)",
}

PICKS = [
    "-subject lunch", "-subject Lunch", "-subject LUNCH", "-from ann", "-to bob -and -not -from cy", "-from ann -or -from cy -and -subject lunch", "-cc dee",
    "-lbrace -from ann -or -from cy -rbrace -and -subject lunch", "-not -subject lunch", "-search noon", "-search ^at", "-search noon\\?$", "-subject l.nch", "-subject l[tu]nch",
    "-subject l[^u]nch", "-subject 'lu*nch'", "-subject ^re:", "-after 2026-06-15", "-before '15 jun 2026'", "-after '15 jun 2026' -and -before '20 jun 2026'", "--x-mailer plain",
    "-after yesterday", "-before today", "-subject zzz",
]

NAMES = ["all", "first", "last", "first:3", "last:2", "10-12", "10:2", "10:-2", "98-200", "next", "prev", "cur:3", "todo", "todo:2", "todo:last", "12 3 4-5", "99-", "0", "first-5", "cur-last", "101"]

# Commands one after another on a mailbox of ten messages.
STEPS = [
    ["mark +inbox -sequence a 1-5", "mark -sequence a -delete 3", "mark -list -sequence a", "scan a -format %(msg)"],
    ["mark +inbox -sequence a -zero 2 7", "mark -sequence a -zero 3", "mark -sequence b -nopublic 4", "mark -list -sequence b"],
    ["mark +inbox -sequence a -delete -zero 3", "mark -list"],
    ["mark +inbox -sequence a 20"],
    ["mark +inbox -sequence cur 2"],
    ["pick +inbox -subject lunch -sequence hit", "pick -from ann -sequence hit -nozero", "mark -list -sequence hit", "pick -from ann -sequence hit -list"],
    ["pick +inbox -subject zzz -sequence hit"],
    ["rmm +inbox 3", "scan -format %(msg)", "rmm 3", "rmm 1-4"],
    ["rmm +inbox", "scan cur -format %(msg)", "rmm last", "rmm all", "rmm all"],
    ["mark +inbox -sequence a all", "rmm 2-4", "scan a -format %(msg)"],
    ["refile -src +inbox 1-3 +other", "scan +other -format %(msg)", "scan +inbox -format %(msg)", "refile 5 +other +third", "scan +third -format %(msg)"],
    ["refile -link -src +inbox 4 +other", "scan +other -format %(msg)"],
    ["refile -src +inbox 1 +inbox"],
    ["refile -src +inbox 12 +other"],
    ["inc -file DROP -width 70", "scan unseen -format %(msg)", "inc -file DROP -silent -nochangecur", "inc -file DROP +other -truncate -format %(msg)", "scan -format %(msg)"],
    ["folder +inbox", "folder 5", "folder next", "folder prev", "folder last", "folder +other", "folder +inbox 1", "folder"],
    ["folder +inbox 2-4", "folder todo"],
    ["folder +inbox 12"],
    ["folder +inbox last", "folder next"],
    ["folder +inbox 5 7"],
    ["folder +none"],
    ["rmm +inbox 3", "folder", "folder next"],
    ["rmm +inbox 3-10", "folder"],
    ["scan +inbox -reverse -format %(msg)", "scan 5-3", "scan x:y", "scan none", "scan +none"],
]

PEOPLE = [
    ("Ann Lee <ann@a.example>", "Bob Roe <bob@b.example>"), ("bob@b.example", "ann@a.example, cy@c.example"), ('"Lee, Ann" <ann@a.example>', "Cy Dee <cy@c.example>"),
    ("Cy Dee <cy@c.example>", "bob@b.example"), ("cy@c.example (Cy Dee)", "Bob Roe <bob@b.example>, Dee <dee@d.example>"),
]
SUBJECTS = ["Lunch", "Re: Lunch", "Message of the day", "A subject that is longer than the room that a line of eighty columns leaves for it", "launch of a boat", "LUNCH at noon", "re: lunch again"]
BODIES = ["At noon?\n", "Hello,\n\nthe boat leaves at noon?\n", "", "one\ttab  and   blanks\n", "x" * 200 + "\n", "> quoted\n> text\n"]
ZONES = ["+0000", "+0200", "-0500", "+0530"]
DAYS = ["Mon", "Tue", "Wed", "Thu", "Fri", "Sat", "Sun"]


def message(n):
    sender, to = PEOPLE[n % len(PEOPLE)]
    day = (n - 1) % 30
    lines = [f"From: {sender}", f"To: {to}", f"Subject: {SUBJECTS[n % len(SUBJECTS)]}"]
    if n % 3 == 0:
        lines.append("Cc: Dee <dee@d.example>")
    if n % 4 == 0:
        lines.append("X-Mailer: plain")
    if n % 10 == 0:
        lines.append("Replied: yes")
    lines.append(f"Date: {DAYS[day % 7]}, {day + 1:02} Jun 2026 {n % 24:02}:{n % 60:02}:{n % 7:02} {ZONES[n % 4]}")
    return "\n".join(lines) + "\n\n" + BODIES[n % len(BODIES)]


def mailbox(home, count, sequences):
    shutil.rmtree(home, ignore_errors=True)
    for folder in ("inbox", "other", "third"):
        os.makedirs(f"{home}/Mail/{folder}")
    files = {".mh_profile": "Path: Mail\nUnseen-Sequence: unseen\n", "Mail/inbox/.mh_sequences": sequences}
    files |= {f"Mail/inbox/{n}": message(n) for n in range(1, count + 1)}
    files["drop"] = "".join(f"From x Tue Jun  2 10:00:00 2026\n{message(n)}\n" for n in (1, 2))
    for name, text in files.items():
        with open(f"{home}/{name}", "w") as f:
            f.write(text)


def run(home, *words):
    ran = subprocess.run(words, env={"HOME": home, **ANN}, stdin=subprocess.DEVNULL, stdout=subprocess.PIPE, stderr=subprocess.PIPE, timeout=60)
    return ran.stdout.decode(errors="replace").split("\n"), ran.returncode, ran.stderr.decode(errors="replace").strip()


def squeezed(ran):
    """An output without more than one blank at a time: nmh's folder puts its numbers in columns."""
    lines, status, error = ran
    return [" ".join(line.split()) for line in lines], status, error


def same(what, ours, theirs):
    """Are two outputs the same lines, with the same status? Where not, the first lines that differ are printed."""
    (mine, my_status, my_error), (others, their_status, their_error) = ours, theirs
    pairs = list(zip(mine, others)) if len(mine) == len(others) else [(" ".join(mine), " ".join(others))]
    differ = [pair for pair in pairs if pair[0] != pair[1]]
    if not differ and my_status == their_status:
        return True
    print(f"nmh differs: {what}: {len(differ)} of {len(pairs)} lines, status {my_status} and {their_status}")
    shown = differ[:1]
    if my_status != their_status:
        shown.append((my_error, their_error))
    for mine, others in shown:
        print(f"    mh:  {mine[:150]}\n    nmh: {others[:150]}")
    return False


def left(home):
    """The names in the folders, and the sequences, without what only the program reads."""
    found = []
    for where, _, names in sorted(os.walk(f"{home}/Mail")):
        below = where[len(home) + 6:]
        if ".mh_sequences" in names:
            with open(f"{where}/.mh_sequences") as f:
                found += [f"{below} {line.strip()}" for line in sorted(f)]
        found += [f"{below}/{name}" for name in sorted(names) if name not in (".mh_lock", "context", ".mh_sequences")]
    return found, 0, ""


def lines(place):
    """Each comparison of lines of a hundred messages, and of the numbers that words and tests choose."""
    home = f"{ROOM}/hundred"

    def both(what, command, words, ours=(), theirs=()):
        mailbox(home, 100, "cur: 50\ntodo: 7 9 11-13 40\nunseen: 90-95\n")
        return same(what, run(home, PROGRAM, command, "+inbox", *words, *ours), run(home, f"{place}/{command}", "+inbox", *words, *theirs))

    yield both("the default line", "scan", ["-width", "80"])
    for what, text in FORMATS.items():
        form = f"{ROOM}/form"
        with open(form, "w") as f:
            f.write(text + "\n")
        yield both(what, "scan", ["-width", "120"], ours=["-format", text], theirs=["-form", form])
    for words in PICKS:
        yield both(f"pick {words}", "pick", shlex.split(words))
    for words in NAMES:
        yield both(f"messages {words}", "scan", [*words.split(), "-format", "%(msg)"])


def steps(place, commands):
    """The same commands on two mailboxes, up to the first that leaves them different."""
    homes = [f"{ROOM}/ours", f"{ROOM}/theirs"]
    for home in homes:
        mailbox(home, 10, "cur: 3\ntodo: 2-4 9\n")
    good = True
    for command in commands:
        name, *words = command.split()
        outs = [run(home, *program, *(f"{home}/drop" if word == "DROP" else word for word in words)) for home, program in zip(homes, ([PROGRAM, name], [f"{place}/{name}"]))]
        good = same(command, *(map(squeezed, outs) if name == "folder" else outs)) and good
        if not same(f"the mailbox after {command}", *map(left, homes)):
            return False
    return good


os.makedirs(ROOM)
for place in PLACES[:1]:
    results = [*lines(place), *(steps(place, commands) for commands in STEPS)]
    print(f"of {len(results)} comparisons with {place}, {sum(results)} are the same line by line")
