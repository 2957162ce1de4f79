"""Owners: a message in a user's folder that belongs to somebody else, readable or not; and a directory above that may be searched and not read."""
import os
import time

from books import NOBODY, NOTE, Box, bare, drop_of, message

SOURCE = "inbox"
OTHERS = 5
NOTING = ["-component", NOTE.decode().split(":")[0], "-text", NOTE.decode().split(": ")[1].strip(), "-nodate"]

# The commands that change a folder: their words, and whether they need the bytes of each message that they choose, or move it.
COMMANDS = {
    "sortm": (["sortm", f"+{SOURCE}", "-textfield", "subject"], True),
    "folder -pack": (["folder", f"+{SOURCE}", "-pack"], True),
    "refile": (["refile", "3-7", "+a", "-src", SOURCE], True),
    "refile -link": (["refile", "-link", "3-7", "+a", "-src", SOURCE], True),
    "anno": (["anno", f"+{SOURCE}", "3-7", *NOTING], True),
    "rmm": (["rmm", f"+{SOURCE}", "3-7"], False),
    "mark": (["mark", f"+{SOURCE}", "3-7", "-sequence", "x"], False),
    "pick": (["pick", f"+{SOURCE}", "-subject", "message", "-sequence", "x"], True),
    "inc": (["inc", f"+{SOURCE}"], False),
}


def mailbox(program, home):
    """Seven messages of one user with gaps between their numbers, another folder, and a drop; all of it nobody's."""
    folders = {SOURCE: {n: message(30 - n) for n in (2, 3, 4, OTHERS, 7, 8, 9)}, "a": {1: message(11)}}
    box = Box(program, home).make(folders, drop_of([message(7001)]), context=b"Kept: yes\nCurrent-Folder: inbox\n")
    return box.own(NOBODY)


def standing(look):
    """The messages that stand at a number or as a backup, without lines of anno."""
    return {bare(text) for kind in (look.numbers, look.backups) for texts in kind.values() for text in texts.values()}


def all_stand(before, look):
    """Each message stands, and none is held aside."""
    there = standing(look)
    bad = [f"message {n} of {it} is lost or held aside" for it, texts in before.numbers.items() for n, text in texts.items() if text not in there]
    return bad + [f"{name} is left in {it}" for it, names in look.held.items() for name in names]


def another_owner(program, home, name, mode):
    """A command on a folder in which one message is root's."""
    words, reads = COMMANDS[name]
    box = mailbox(program, home)
    before = box.look()
    os.chown(f"{box.mail}/{SOURCE}/{OTHERS}", 0, 0)
    os.chmod(f"{box.mail}/{SOURCE}/{OTHERS}", mode)
    ran = box.run(*words)
    bad = []
    if mode == 0o644 and ran.returncode != 0:
        bad.append(f"it ended in {ran.returncode}: {ran.stderr}")
    if mode == 0o600 and reads and (ran.returncode != 2 or f"{SOURCE}/{OTHERS}".encode() not in ran.stderr):
        bad.append(f"it ended in {ran.returncode} and doesn't name the message: {ran.stderr}")
    mended = box.run("mark", f"+{SOURCE}", "all", "-sequence", "mended")
    bad += [] if mended.returncode == 0 else [f"the next command ended in {mended.returncode}: {mended.stderr}"]
    return bad + all_stand(before, box.look())


def closed_above(program, home, name):
    """A command on a mail directory whose parent may be searched and not read."""
    words, _ = COMMANDS[name]
    box = mailbox(program, home)
    before = box.look()
    os.chown(box.home, 0, 0)
    os.chmod(box.home, 0o711)
    ran = box.run(*words)
    bad = [] if ran.returncode == 0 else [f"it ended in {ran.returncode}: {ran.stderr}"]
    return bad + all_stand(before, box.look())


def run(program, seconds, room, count, rng, only=""):
    """Each command with each owner, at least once."""
    if os.geteuid() != 0:
        print("  skipped: other owners and closed directories, since this is not root")
        return
    with open("/proc/sys/fs/protected_hardlinks") as f:
        if f.read().strip() != "1":
            print("  fs.protected_hardlinks is off here, so that links of other owners' files are allowed")
    end, tried = time.monotonic() + seconds, 0
    while not tried or time.monotonic() < end:
        for name in [it for it in COMMANDS if it.startswith(only)]:
            for mode in (0o644, 0o600):
                bad = another_owner(program, f"{room}/box", name, mode)
                count.check(f"{name}, a message of another owner, {mode:03o}", bad, [("box", f"{room}/box")])
            count.check(f"{name}, a directory above that can't be read", closed_above(program, f"{room}/box", name))
            tried += 3
        if tried and time.monotonic() > end:
            break
    print(f"  {tried} commands")
