"""Tests of what a user reads: pages.py PROGRAM DIRECTORY. The last line is 'N passed, M failed'.

The switches of the manual pages, of `mh help` and of the completions are those of the program's tables; the examples of the pages
print what the pages say; help and links answer; and what is installed runs."""
import os
import re
import shutil
import subprocess
import sys
from pathlib import Path

PROGRAM, ROOM = sys.argv[1], Path(sys.argv[2])
TOP = Path(__file__).resolve().parent.parent.parent
COMMANDS = ["anno", "folder", "inc", "mark", "mhbuild", "mhlist", "mhstore", "pick", "refile", "rmm", "scan", "sortm"]
passed = failed = 0


def check(name, good, more=""):
    global passed, failed
    if good:
        passed += 1
    else:
        failed += 1
        print(f"failed: {name} {more}")


def run(*words, home=ROOM, program=PROGRAM):
    return subprocess.run([program, *words], env={"HOME": str(home)}, capture_output=True, text=True)


def tables():
    """The switches of each command, by the code of the words that the program reads."""
    below = re.search(r"^command_line: (.*)$", (TOP / "crates.txt").read_text(), re.M).group(1).split()
    files = [it for crate in below for it in (TOP / f"crates/{crate}/src").glob("table*.rt") if crate.endswith("_words")]
    names = lambda rows: set(re.findall(r'\("(\w+)", Kind::', rows))
    table = r"const \w+: \[\(&str, Kind\); \d+\] = \[(.*?)\];"
    pick = re.search(table, (TOP / "crates/pick_expr/src/switches.rt").read_text(), re.S).group(1)
    found = {"mhbuild": set(), "pick": names(pick)}
    for name, rows in re.findall(r"/// The switch(?:es)? of `(\w+)`\.\n" + table, "\n".join(it.read_text() for it in files), re.S):
        found[name] = names(rows)
    return found


def page_text(name, section=1):
    return (TOP / f"man/{name}.{section}").read_text()


def page_switches(text):
    """Those of a page; one that begins with a hyphen of its own is the field of a test."""
    return {it for it in re.findall(r"\bFl ([a-z-]+)", text) if not it.startswith("-")}


def words_switches(text):
    """Those of plain text."""
    return set(re.findall(r"(?<![\w-])-([a-z]+)\b", text))


def switches():
    """The tables, and what says the same."""
    known = tables()
    check("a table for each command", sorted(known) == COMMANDS, known.keys())
    for command in COMMANDS:
        page = page_text(f"mh-{command}")
        parts = re.split(r"^\.Sh (.*)$", page, flags=re.M)
        synopsis, description = (parts[parts.index(it) + 1] for it in ("SYNOPSIS", "DESCRIPTION"))
        tests = {"and", "or", "not", "lbrace", "rbrace", "from", "to", "cc", "subject", "date", "search", "before", "after"} if command == "pick" else set()
        check(f"synopsis of {command}", page_switches(synopsis) | tests == known[command], page_switches(synopsis) ^ known[command])
        items = "\n".join(it for it in description.split("\n") if it.startswith(".It"))
        check(f"switches of mh-{command}(1)", page_switches(items) == known[command], page_switches(items) ^ known[command])
        told = run("help", command)
        usage = re.sub(r"^  (mh|m=\$\(mh) .*$", "", told.stdout, flags=re.M)
        check(f"mh help {command}", told.returncode == 0 and words_switches(usage) == known[command], words_switches(usage) ^ known[command])
        offered = {it.split(" ")[0][1:] for it in run("--switches", command).stdout.splitlines()}
        check(f"mh --switches {command}", offered == known[command], offered ^ known[command])


def functions():
    """The functions of formats, by the code, and those of the page."""
    code = (TOP / "crates/format_compiler/src/function.rt").read_text()
    table = code[code.index("pub const FUNCTIONS") :]
    known = {it.lower() for it in re.findall(r"Function::(\w+)", table[: table.index("];")])}
    part = page_text("mh-lines", 5).split(".Ss Functions")[1].split(".Sh EXAMPLES")[0]
    told = {it for line in re.findall(r"^\.It Ic (.*)$", part, re.M) for it in line.replace(",", " ").split()}
    check("functions of mh-lines(5)", len(known) == 56 and told == known, told ^ known)


def examples():
    """What the pages print is printed."""
    for name, section in [("mh", 1), ("mh-lines", 5)] + [(f"mh-{it}", 1) for it in COMMANDS]:
        home = ROOM / name
        shutil.copytree(TOP / "crates/mh/data", home)
        text = page_text(name, section)
        blocks = re.findall(r"^\.Bd -literal\n(\$ .*?)\n\.Ed", text[text.index("\n.Sh EXAMPLES\n") :], re.S | re.M)
        check(f"examples of {name}({section})", len(blocks) == 1)
        for part in re.split(r"^\$ ", "\n".join(blocks).replace("\\e", "\\").replace("\\&", ""), flags=re.M)[1:]:
            line, _, wanted = part.partition("\n")
            if line.startswith("cat "):
                (home / line[4:]).write_text(wanted)
                continue
            ran = subprocess.run(["sh", "-c", line], cwd=home, env={"HOME": str(home), "PATH": f"{ROOM}/bin:/usr/bin:/bin"}, stdout=subprocess.PIPE, stderr=subprocess.STDOUT, text=True)
            check(f"{name}({section}): {line}", ran.stdout.rstrip("\n") == wanted.rstrip("\n"), f"\n{ran.stdout}")


def pages():
    """They are in order, by mandoc."""
    if not shutil.which("mandoc"):
        print("mandoc is not installed: the pages are not looked at")
        return
    for page in sorted((TOP / "man").glob("*.[157]")):
        ran = subprocess.run(["mandoc", "-T", "lint", page.name], cwd=page.parent, capture_output=True, text=True)
        check(f"mandoc: {page.name}", ran.stdout == "", ran.stdout)


def help_pages():
    """What `main` answers itself, and what goes to the commands."""
    first = run("help")
    check("mh help", first.returncode == 0 and all(f"\n  {it} " in first.stdout for it in COMMANDS) and first.stderr == "")
    check("mh --help", run("--help").stdout == first.stdout)
    version = r"mh \d+\.\d+\.\d+\nof a commit that nobody told: install.sh writes it beside the program\n"
    check("mh --version", re.fullmatch(version, run("--version").stdout) is not None)
    nothing = run("help", home=ROOM / "nobody").stdout
    check("no mail directory", f"Your mail directory is {ROOM}/nobody/Mail.\nIt isn't there yet" in nothing)
    home = ROOM / "somebody"
    (home / "post/inbox").mkdir(parents=True)
    (home / ".mh_profile").write_text("Path: post\n")
    check("a mail directory", run("help", home=home).stdout.endswith(f"Your mail directory is {home}/post.\n"))
    for words, line in ((["help", "scan", "inc"], "unknown command: help"), (["--version", "x"], "unknown command: --version"), (["--switches", "x"], "unknown command: --switches")):
        ran = run(*words, home=home)
        check(f"mh {' '.join(words)}", ran.returncode == 1 and ran.stdout == "" and ran.stderr == f'mh: {line}\nmh: "mh help" lists the commands\n')
    with open("/dev/full", "w") as full:
        ran = subprocess.run([PROGRAM, "help"], env={"HOME": str(home)}, stdout=full, stderr=subprocess.PIPE, text=True)
    check("help that can't be written", ran.returncode == 2 and ran.stderr == "mh: fault of output\n")
    for text in [first.stdout] + [run("help", it).stdout for it in COMMANDS + ["errors"]]:
        check(f"{text.split(chr(10))[0]} in 80 columns", text != "" and all(len(it) <= 80 for it in text.split("\n") if str(ROOM) not in it))


def errors():
    """Each line of errors that a command can end with is on its page."""
    page = re.sub(r"\s+", " ", run("help", "errors").stdout)
    code = (TOP / "crates/mh_tools/src/lines.rt").read_text()
    body = code[code.index("fn say_command") : code.index("fn say_place")]
    lines = {re.sub(r" at (byte|word|line) $|: \+?$", "", it) for it in re.findall(r'b"([a-z][^"]*?)"', body)}
    lines = {it for it in lines if it.strip() and "limit" not in it}
    manual = re.sub(r"\s+", " ", page_text("mh-errors", 7).replace("\\(dq", '"').replace("\\&", "").replace("\n.It Li", ""))
    for line in sorted(lines):
        check(f"mh help errors: {line}", line in page)
        check(f"mh-errors(7): {line}", line in manual or line.split(" is ")[0] in manual)
    for line in ("the profile's entry", "no help on", "is no UTF-8 text", "which is neither +hhmm nor -hhmm", "no setting"):
        check(f"mh-errors(7): {line}", line in manual)


def readme():
    """README is one page, and its session prints what it says."""
    lines = (TOP / "README.md").read_text().split("\n")
    check("README is one page", len(lines) <= 91 and all(len(it) <= 100 for it in lines), [it for it in lines if len(it) > 100])
    home = ROOM / "readme"
    shutil.copytree(TOP / "crates/mh/data", home)
    shown = "\n".join(it[4:] for it in lines if it.startswith("    "))
    session = [it.partition("\n") for it in re.split(r"^\$ ", shown, flags=re.M)[1:]]
    check("README has a session", len(session) == 5, session)
    for line, _, wanted in session:
        wanted = wanted.split("./build")[0]
        ran = subprocess.run(["sh", "-c", line], cwd=home, env={"HOME": str(home), "PATH": f"{ROOM}/bin:/usr/bin:/bin"}, stdout=subprocess.PIPE, stderr=subprocess.STDOUT, text=True)
        check(f"README: {line}", ran.stdout.rstrip("\n") == wanted.rstrip("\n"), f"\n{ran.stdout}")
    for command in re.findall(r"^    (\S+)", "\n".join(lines), re.M):
        if command.startswith(("./", ".ci/")):
            check(f"README: {command}", os.access(TOP / command, os.X_OK))
    for page in re.findall(r"docs/[A-Z-]+\.md", "\n".join(lines)):
        check(f"README: {page}", (TOP / page).is_file())
    crates = re.findall(r"^(\w+)[^:\n]*:", (TOP / "crates.txt").read_text(), re.M)
    text = "".join(it.read_text() for it in [TOP / "README.md", *(TOP / "docs").glob("*.md")])
    check("each crate is told of", [it for it in crates if not re.search(rf"\b{it}\b", text)] == [])


def formats():
    """The formats that are installed compile."""
    home = ROOM / "formats"
    shutil.copytree(TOP / "crates/mh/data", home)
    for form in sorted((TOP / "share/mh").iterdir()):
        ran = run("scan", "+inbox", "-form", str(form), home=home)
        check(f"{form.name} compiles", ran.returncode == 0 and ran.stdout.count("\n") == 3, ran.stderr)


def links():
    """A link by a command's name is the command."""
    home = ROOM / "linked"
    shutil.copytree(TOP / "crates/mh/data", home)
    scan = run("scan", "+inbox", home=home).stdout
    check("scan by its own name", scan != "" and run("+inbox", home=home, program=f"{ROOM}/links/scan").stdout == scan)
    check("mh by another name", run("scan", "+inbox", home=home, program=f"{ROOM}/links/other").stdout == scan)


def install(*words, prefix="/usr", dest=None):
    """install.sh with these words."""
    place = {"DESTDIR": str(dest)} if dest else {}
    return subprocess.run([str(TOP / "install.sh"), *words], env={**place, "PREFIX": str(prefix), "PATH": os.environ["PATH"], "HOME": str(ROOM)}, capture_output=True, text=True)


def standing(folder):
    """What stands below a folder."""
    return sorted(str(it.relative_to(folder)) for it in folder.rglob("*") if not it.is_dir() or it.is_symlink())


def installed():
    """What is installed is there and runs, and goes again."""
    dest = ROOM / "dest"
    ran = install(PROGRAM, "--links", dest=dest)
    usr = dest / "usr"
    check("install.sh", ran.returncode == 0, ran.stderr)
    version = run("--version", program=str(usr / "bin/mh")).stdout
    check("the version that is installed", re.fullmatch(r"mh \d+\.\d+\.\d+\ncommit .*\nkit .*\n", version) is not None, version)
    commit = subprocess.run(["git", "-C", str(TOP), "log", "-1", "--format=%H of %cs"], capture_output=True, text=True)
    check("its commit", commit.returncode != 0 or f"\ncommit {commit.stdout.strip()}" in version, version)
    check("its links", all(os.readlink(usr / "bin" / it) == "mh" for it in COMMANDS))
    pages = {it.name for it in (TOP / "man").iterdir()} | {f"{it}.1" for it in COMMANDS}
    check("its pages", sorted(it.name for it in (usr / "share/man").glob("man*/*")) == sorted(pages))
    check("a link's page", (usr / "share/man/man1/scan.1").read_text() == page_text("mh-scan"))
    there = ["bash-completion/completions/mh", "zsh/site-functions/_mh_commands", "fish/vendor_completions.d/mh.fish", "bash-completion/completions/scan", "fish/vendor_completions.d/scan.fish"]
    check("its completions", all((usr / "share" / it).is_file() for it in there))
    check("no file hides zsh's own", not (usr / "share/zsh/site-functions/_mh").exists())
    check("its formats", sorted(it.name for it in (TOP / "share/mh").iterdir()) == sorted({it.name for it in (usr / "share/mh").iterdir()} - {"installed", "version"}))
    (usr / "bin/other").write_text("")
    check("install.sh again", install("--links", PROGRAM, dest=dest).returncode == 0)
    ran = install("--uninstall", dest=dest)
    check("install.sh --uninstall", ran.returncode == 0 and standing(usr) == ["bin/other"], f"{ran.stderr} {standing(usr)}")
    ran = install("--uninstall", dest=dest)
    check("nothing to take away", ran.returncode == 1 and "nothing of this is installed" in ran.stderr, ran.stderr)
    ran = install(str(ROOM / "none"), dest=dest)
    check("install.sh without a program", ran.returncode == 1 and "there is no program yet" in ran.stderr)
    check("install.sh --help", install("--help").stdout.startswith("usage: ./install.sh [--links] [--force] [PROGRAM]\n"))
    check("a switch that is none", install("--glue", PROGRAM, dest=dest).returncode == 1 and standing(usr) == ["bin/other"])
    check("two programs", install(PROGRAM, PROGRAM, dest=dest).returncode == 1 and standing(usr) == ["bin/other"])
    # Debian keeps nmh's commands in /usr/bin/mh.
    (usr / "bin/mh").mkdir()
    ran = install(PROGRAM, dest=dest)
    check("a directory in the way", ran.returncode == 1 and "bin/mh is a directory" in ran.stderr and "PREFIX=/usr/local" in ran.stderr and standing(usr) == ["bin/other"], ran.stderr)
    (usr / "bin/mh").rmdir()
    (usr / "bin/scan").write_text("mine")
    ran = install("--links", PROGRAM, dest=dest)
    check("a file in the way of a link", ran.returncode == 1 and "--force" in ran.stderr and standing(usr) == ["bin/other", "bin/scan"], ran.stderr)
    ran = install("--links", PROGRAM, "--force", dest=dest)
    check("install.sh --force", ran.returncode == 0 and os.readlink(usr / "bin/scan") == "mh", ran.stderr)
    install("--uninstall", dest=dest)
    (usr / "share/man").mkdir(parents=True)
    (usr / "share/man/man5").write_text("in the way")
    ran = install(PROGRAM, dest=dest)
    check("no half installation", ran.returncode == 1 and standing(usr) == ["bin/other", "share/man/man5"], f"{ran.stderr} {standing(usr)}")


SHELLS = {
    "bash": """. "$TOP/completion/mh.bash"; COMP_WORDS=("$@"); COMP_CWORD=$(($# - 1)); _mh; printf "%s\\n" "${COMPREPLY[@]}" """,
    "fish": """source "$TOP/completion/mh.fish"; complete -C (string join ' ' -- (string replace -a ' ' '\\\\ ' -- $argv[1..-2]) $argv[-1]) | string replace -r '\\t.*' ''""",
    # What compadd and _files are asked to offer, where the line is these words.
    "zsh": """compadd() { local -a given; given=("${(@)@[2,-1]}"); print -l -- ${(M)given:#${words[CURRENT]}*}; return 0 }
        _files() { print -l -- ${words[CURRENT]}*(N) }
        words=("$@"); CURRENT=$#; [[ -n ${words[-1]} ]] || words[-1]=''
        functions[_mh_commands_file]=$(<$TOP/completion/_mh_commands); _mh_commands_file""",
}


def completed(shell, home, *words):
    """What a shell offers for the last of these words."""
    env = {"HOME": str(home), "PATH": f"{ROOM}/bin:/usr/bin:/bin", "TOP": str(TOP)}
    start = {"bash": ["bash", "-c"], "zsh": ["zsh", "-f", "-c"], "fish": ["fish", "--no-config", "-c"]}[shell]
    name = [] if shell == "fish" else [shell]
    ran = subprocess.run([*start, SHELLS[shell], *name, *words], cwd=home, env=env, capture_output=True, text=True)
    return sorted(it.replace("\\ ", " ").rstrip() for it in ran.stdout.split("\n") if it.strip())


def completions():
    """Commands, switches and what they take, folders and sequences are offered."""
    home = ROOM / "completed"
    shutil.copytree(TOP / "crates/mh/data", home)
    (home / "Mail/inbox/.mh_sequences").write_text("cur: 2\ntodo: 1\n")
    (home / "Mail/work/later").mkdir(parents=True)
    (home / "Mail/old mail").mkdir()
    (home / "Mail/work/.mh_sequences").write_text("done: 1\n")
    (home / "Mail/context").write_text("atr-mine-work: 1\nCurrent-Folder: inbox\n")
    (home / "letter").write_text("")
    rows = [
        ("commands", ["refile", "rmm"], "mh", "r"),
        ("pages of help", ["errors"], "mh", "help", "e"),
        ("commands behind --wait", ["scan", "sortm"], "mh", "--wait", "5", "s"),
        ("switches", ["-reverse"], "mh", "scan", "-r"),
        ("switches behind --wait", ["-reverse"], "mh", "--wait", "5", "scan", "-r"),
        ("switches of folder", ["-nopack", "-pack"], "mh", "folder", "-"),
        ("switches of a link", ["-noreverse"], "scan", "-no"),
        ("folders", ["+work", "+work/later"], "mh", "scan", "+w"),
        ("a folder with a blank", ["+old mail"], "mh", "scan", "+o"),
        ("sequences of the current folder", ["todo"], "mh", "scan", "t"),
        ("sequences of the folder that is named", ["done"], "mh", "scan", "+work", "d"),
        ("private sequences", ["mine"], "mh", "scan", "+work", "m"),
        ("sequences behind a switch", ["todo"], "mh", "mark", "-sequence", ""),
        ("sequences behind a switch of a folder", ["done", "mine"], "mh", "mark", "+work", "-sequence", ""),
        ("sequences behind a switch that is cut", ["todo"], "mh", "mark", "-seq", ""),
        ("what -clobber takes", ["always", "never"], "mh", "mhstore", "-clobber", ""),
        ("what a cut -clobber takes", ["always"], "mh", "mhstore", "-cl", "a"),
        ("days", ["today", "tomorrow", "tuesday", "thursday"], "mh", "pick", "-after", "t"),
        ("folders behind -src", ["+work", "+work/later"], "mh", "refile", "-src", "+w"),
        ("files behind -file", ["letter"], "mh", "inc", "-file", "l"),
        ("a draft", ["letter"], "mh", "mhbuild", "le"),
        ("no field of -component", [], "mh", "anno", "-component", ""),
        ("no part", [], "mh", "mhlist", "-part", ""),
        ("no format", [], "mh", "scan", "-format", ""),
    ]
    for shell, file in (("bash", "mh.bash"), ("zsh", "_mh_commands"), ("fish", "mh.fish")):
        if not shutil.which(shell):
            print(f"{shell} is not installed: its completions are not looked at")
            continue
        check(f"{shell} reads it", subprocess.run([shell, "-n", str(TOP / "completion" / file)], capture_output=True).returncode == 0)
        for name, wanted, *words in rows:
            # fish says nothing of links beside a program that is not in PATH under their name
            if shell == "fish" and words[0] != "mh":
                continue
            got = completed(shell, home, *words)
            check(f"{name} in {shell}", got == sorted(wanted), f"{got} for {wanted}")


def newcomer():
    """What somebody meets in an empty home directory, as docs/FIRST-TEN-MINUTES.md has it."""
    home = ROOM / "newcomer"
    home.mkdir()
    text = "From: Ann Lee <ann@a.example>\nSubject: Dinner\nDate: Tue, 02 Jun 2026 12:00:00 +0000\n\nAt eight?\n"
    (home / "drop").write_text(f"From ann@a.example Tue Jun  2 12:00:00 2026\n{text}")
    line = "06/02 Ann Lee            Dinner<<At eight?\n"
    steps = [
        ("scan", 1, "", "no such folder: +inbox"),
        ("inc", 1, "", "no mail to incorporate"),
        ("inc -file drop", 0, f"Incorporating new mail into inbox...\n\n   1+ {line}", ""),
        ("folder", 0, "inbox+ has 1 message (1-1); cur=1.\n", ""),
        ("scan inbox", 1, "", "no messages in sequence: inbox"),
        ("show", 1, "", 'unknown command: show\nmh: "mh help" lists the commands'),
        ("mark -sequence todo cur", 0, "", ""),
        ("scan todo", 0, f"   1+ {line}", ""),
        ("refile +done", 0, "", ""),
        ("scan +done", 0, f"   1  {line}", ""),
        ("rmm 1", 0, "", ""),
    ]
    for words, status, out, err in steps:
        ran = subprocess.run([PROGRAM, *words.split()], cwd=home, env={"HOME": str(home)}, capture_output=True, text=True)
        check(f"a newcomer's mh {words}", (ran.returncode, ran.stdout, ran.stderr) == (status, out, err and f"mh: {err}\n"), ran.stdout + ran.stderr)
    check("what was removed stays behind a comma", (home / "Mail/done/,1").read_text() == text)


for name in ("bin/mh", "links/scan", "links/other"):
    (ROOM / name).parent.mkdir(parents=True, exist_ok=True)
    (ROOM / name).symlink_to(PROGRAM)
for part in (switches, functions, examples, pages, help_pages, errors, readme, formats, links, installed, completions, newcomer):
    part()
print(f"{passed} passed, {failed} failed")
