"""Three people's ways, with the installed program in bash, zsh and fish: people.py PROGRAM DIRECTORY. The last line is 'N passed, M failed'.

A newcomer goes through docs/FIRST-TEN-MINUTES.md in an empty home; somebody who comes from nmh brings scripts; somebody asks whether to trust it.
A shell that is missing is skipped, and that is said."""
import os
import shutil
import subprocess
import sys
from pathlib import Path

PROGRAM, ROOM = sys.argv[1], Path(sys.argv[2])
TOP = Path(__file__).resolve().parent.parent.parent
SHELLS = {"bash": ["bash", "--norc", "-c"], "zsh": ["zsh", "-f", "-c"], "fish": ["fish", "--no-config", "-c"]}
passed = failed = 0


def check(name, good, more=""):
    global passed, failed
    if good:
        passed += 1
    else:
        failed += 1
        print(f"failed: {name} {more}")


TEXT = "From: Ann Lee <ann@a.example>\nSubject: Dinner\nDate: Tue, 02 Jun 2026 12:00:00 +0000\n\nAt eight?\n"
LINE = "06/02 Ann Lee            Dinner<<At eight?\n"
LISTS = '\nmh: "mh help" lists the commands'

# A line of a shell, the status, the output, and the error output behind its first `mh: `; none where it isn't looked at.
NEWCOMER = [
    ("mh", 1, "", None),
    ("mh --help", 0, None, ""),
    ("mh scan", 1, "", "no such folder: +inbox"),
    ("mh inc", 1, "", "no mail to incorporate"),
    ("mh inc -file drop", 0, f"Incorporating new mail into inbox...\n\n   1+ {LINE}", ""),
    ("mh folder", 0, "inbox+ has 1 message (1-1); cur=1.\n", ""),
    ("mh scan inbox", 1, "", "no messages in sequence: inbox"),
    ("cat ~/Mail/inbox/1", 0, TEXT, ""),
    ("mh show", 1, "", f"unknown command: show{LISTS}"),
    ("mh mark -sequence todo cur", 0, "", ""),
    ("mh scan todo", 0, f"   1+ {LINE}", ""),
    ("mh refile +done", 0, "", ""),
    ("mh scan +done", 0, f"   1  {LINE}", ""),
    ("mh scan | head -n 1", 0, f"   1  {LINE}", ""),
    ("mh pick -after x", 1, "0\n", "bad date: x"),
    ("mh rmm 1", 0, "", ""),
    ("cat ~/Mail/done/,1", 0, TEXT, ""),
    ("mh help scan", 0, None, ""),
    ("mh scan --help", 0, None, ""),
]

# Somebody with twenty years of scripts: the commands by their own names.
SCRIPTS = [
    ("inc -file drop -silent", 0, "", ""),
    ("scan -format '%(msg) %{subject}'", 0, "1 Dinner\n", ""),
    ("pick -subject dinner -sequence found && scan found -format '%(msg)'", 0, "1\n", ""),
    ("scan -form $TOP/share/mh/scan.time", 0, "   1+ 06/02 12:00+00 Ann Lee            Dinner<<At eight?\n", ""),
    ("pick -after 'last fortnight' | xargs rmm", None, "", None),
    ("scan -format '%(msg)'", 0, "1\n", ""),
    ("refile -help", 1, "", 'unknown switch: -help\nmh: "mh help refile" tells its switches'),
    ("refile --help | head -n 1", 0, "usage: mh refile [messages] +folder.. [-src +folder] [-link | -nolink]\n", ""),
    ("scan -header", 1, "", 'unknown switch: -header\nmh: "mh help scan" tells its switches'),
    ("mh --wait 1 rmm 1", 0, "", ""),
    ("cat ~/Mail/inbox/,1", 0, TEXT, ""),
]

# Somebody who asks whether to trust it: what it is, what is promised, and where.
TRUST = [
    ("mh --version | head -n 1", 0, None, ""),
    ("mh --version | grep -c '^commit '", 0, "1\n", ""),
    ("mh --version | grep -c '^kit '", 0, "1\n", ""),
    ("mh help errors | head -n 1", 0, None, ""),
    ("test -s $TOP/docs/GUARANTEES.md", 0, "", ""),
    ("grep -c 'ensures plan' $TOP/crates/mh_tools/src/top.rt", 0, "1\n", ""),
]


# In a fresh shell the links complete as the commands do, by what was installed.
COMPLETE = {
    "bash": ("source ~/.local/share/bash-completion/completions/scan; complete -p scan mh", "complete -F _mh scan\ncomplete -F _mh mh\n"),
    "zsh": ("fpath=(~/.local/share/zsh/site-functions $fpath); autoload -Uz compinit; compinit -u -D; print $_comps[scan] $_comps[mh]", "_mh_commands _mh_commands\n"),
    "fish": ("set fish_complete_path ~/.local/share/fish/vendor_completions.d; complete -C 'scan -no'; complete -C 'mh scan -no'", "-noreverse\n-noreverse\n"),
}


def go(shell, who, steps, links):
    """One person's way in one shell, with a program that is installed for it and taken away again."""
    room = ROOM / shell / who
    home = room / "home"
    home.mkdir(parents=True)
    (home / "drop").write_text(f"From ann@a.example Tue Jun  2 12:00:00 2026\n{TEXT}")
    prefix = home / ".local"
    env = {"HOME": str(home), "PATH": f"{prefix}/bin:{os.environ['PATH']}", "TOP": str(TOP), "LC_ALL": "C.UTF-8"}
    install = lambda *words: subprocess.run([str(TOP / "install.sh"), *words], env={**env, "PREFIX": str(prefix)}, capture_output=True, text=True)
    ran = install(PROGRAM, *links)
    check(f"{who} installs it", ran.returncode == 0 and "mh is installed" in ran.stdout, ran.stderr)
    for line, status, out, err in steps:
        ran = subprocess.run([*SHELLS[shell], line], cwd=home, env=env, stdin=subprocess.DEVNULL, capture_output=True, text=True)
        good = status in (None, ran.returncode) and out in (None, ran.stdout) and (err is None or ran.stderr == (err and f"mh: {err}\n"))
        check(f"{who} in {shell}: {line}", good, f"{ran.returncode} {ran.stdout!r} {ran.stderr!r}")
    ran = install("--uninstall")
    check(f"{who} takes it away", ran.returncode == 0 and not any(not it.is_dir() for it in prefix.rglob("*")), f"{ran.stderr} {[str(it) for it in prefix.rglob('*')]}")


for shell in SHELLS:
    if not shutil.which(shell):
        print(f"{shell} is not installed: nobody goes that way")
        continue
    go(shell, "a newcomer", NEWCOMER, [])
    line, out = COMPLETE[shell]
    go(shell, "who comes from nmh", [(line, 0, out, ""), *SCRIPTS], ["--links"])
    go(shell, "who asks whether to trust it", TRUST, [])
print(f"{passed} passed, {failed} failed")
