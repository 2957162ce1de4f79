"""The harness itself: each rule is shown a mailbox, an order of steps or an end that is broken, and must complain, and not of whole ones."""
import os
import random
import shutil
import subprocess

import faults
import hostile
import rivals
import steps
from books import (Box, acknowledged, copied_whole, drop_of, left_aside, marks_went, message, moved, newcomers, refiled_whole,
                   removed_whole, renumbered, sequences_kept, sorted_whole, taken_in, torn, write)

DROP = drop_of([message(7001), message(7002)])


def mailbox(room, change=lambda mail: None):
    """A look at a mailbox of three messages, after a change of its files."""
    sequences = {"inbox": b"todo: 1-2\n"}
    box = Box("none", f"{room}/box").make({"inbox": {n: message(n) for n in (1, 2, 3)}, "a": {}}, DROP, sequences, b"atr-mine-inbox: 1\n")
    change(box.mail)
    return box.look()


def gone(mail):
    """Message 2 is gone."""
    os.remove(f"{mail}/inbox/2")


def cut(mail):
    """Message 2 is cut short."""
    write(f"{mail}/inbox/2", message(2)[:-5])


def swapped(mail):
    """Message 2 stands at the number of message 3."""
    os.replace(f"{mail}/inbox/2", f"{mail}/inbox/3")


def turned(todo):
    """Messages 2 and 3 changed their places, and these numbers are marked."""
    def change(mail):
        """Turns them."""
        write(f"{mail}/inbox/2", message(3))
        write(f"{mail}/inbox/3", message(2))
        write(f"{mail}/inbox/.mh_sequences", b"todo: " + todo + b"\n")
    return change


def doubled(mail):
    """Message 2 was put into a twice."""
    write(f"{mail}/a/1", message(2))
    write(f"{mail}/a/2", message(2))


def aside(name):
    """A name is left in the folder."""
    return lambda mail: shutil.copy(f"{mail}/inbox/1", f"{mail}/inbox/{name}")


def shorter_drop(data):
    """The drop has only these bytes."""
    return lambda mail: write(f"{os.path.dirname(mail)}/drop", data)


def marked(public, private):
    """Other sequences."""
    def change(mail):
        """Writes them."""
        write(f"{mail}/inbox/.mh_sequences", public)
        write(f"{mail}/context", private)
    return change


def put_at_four(mail):
    """The sequences mark 4, and a new message stands there."""
    marked(b"todo: 1-2 4\n", b"atr-mine-inbox: 1\n")(mail)
    write(f"{mail}/inbox/4", message(7001))


def of_books(room):
    """Each rule of the books, with its complaints of what is broken and of what is whole."""
    whole, known = mailbox(room), {message(n) for n in (1, 2, 3)}
    after = mailbox(room, marked(b"todo: 1-3\n", b"atr-mine-inbox: 1-2\n"))
    looks = {it: mailbox(room, it) for it in (gone, cut, swapped, doubled)}
    held, temp = mailbox(room, aside(f".mh_held_{'0' * 32}_9")), mailbox(room, aside(f".mh_temp_{'0' * 32}_0"))
    empty, part = mailbox(room, shorter_drop(b"")), mailbox(room, shorter_drop(DROP[:90]))
    wrong = mailbox(room, marked(b"todo: 1 3\n", b"atr-mine-inbox: 1\n"))
    early, lost_entry = mailbox(room, marked(b"todo: 1-2\n", b"atr-mine-inbox: 1-2\n")), mailbox(room, marked(b"todo: 1-2\n", b""))
    line = b"   2  06/02 user2@many.exampl  message 9<<a line\n"
    right = line.replace(b"message 9", b"message 2")
    yield "a lost message", refiled_whole(whole, looks[gone], "inbox", [2], ["a"]), refiled_whole(whole, whole, "inbox", [2], ["a"])
    yield "a message put twice", copied_whole(whole, looks[doubled], "inbox", [2], ["a"]), copied_whole(whole, whole, "inbox", [2], ["a"])
    yield "a message put twice by a move", refiled_whole(whole, looks[doubled], "inbox", [2], ["a"]), []
    no_backup = removed_whole(whole, looks[gone], "inbox", [2], True)
    yield "a removal without a backup", no_backup, removed_whole(whole, looks[gone], "inbox", [2], False)
    yield "a message that was not chosen", moved(whole, looks[gone], "inbox", [1]), moved(whole, looks[gone], "inbox", [2])
    yield "a torn message", torn(looks[cut], known), torn(whole, known)
    yield "another message at a number", renumbered([whole, looks[swapped]]), renumbered([whole, looks[gone]])
    elsewhere = newcomers(whole, looks[doubled], ["inbox"], known)
    yield "a new number where nothing goes", elsewhere, newcomers(whole, looks[doubled], ["a"], known)
    yield "a new number below others", newcomers(looks[gone], whole, ["inbox"], known), newcomers(whole, whole, ["inbox"], known)
    yield "a held name that is left", left_aside(held, ["inbox"]), left_aside(whole, ["inbox"])
    yield "a temporary name that is left", left_aside(temp, ["inbox"]), left_aside(held, ["a"])
    yield "a drop that was cut too early", taken_in(empty, "inbox", DROP), taken_in(whole, "inbox", DROP)
    yield "a drop that was cut to a part", taken_in(part, "inbox", DROP), []
    yield "a line of a message that isn't there", acknowledged(whole, "inbox", line), acknowledged(whole, "inbox", right)
    along, stayed = mailbox(room, turned(b"1 3")), mailbox(room, turned(b"1-2"))
    yield "a message that is lost while others change places", sorted_whole(whole, looks[gone], "inbox", [2, 3]), sorted_whole(whole, along, "inbox", [2, 3])
    yield "a mark that stays at its number", marks_went(whole, stayed, "inbox", [2, 3]), marks_went(whole, along, "inbox", [2, 3])
    yield "a mark that is lost of a message that stays", marks_went(whole, mailbox(room, turned(b"3")), "inbox", [2, 3]), []
    kept = lambda before, look, settled: sequences_kept(before, after, look, "inbox", settled)
    absent, passed = mailbox(room, marked(b"todo: 1-2 4\n", b"atr-mine-inbox: 1\n")), mailbox(room, put_at_four)
    yield "sequences of no commit", kept(whole, wrong, True), kept(whole, after, True)
    yield "private sequences before public ones", kept(whole, early, False), kept(whole, whole, False)
    yield "a private sequence that is lost", kept(whole, lost_entry, False), []
    yield "a mark that passed to a new message", kept(absent, passed, True), []
    yield "the same when the run is dead", kept(absent, passed, False), kept(absent, absent, False)


def order(name, change=lambda lines: lines):
    """The events of an expected text, after a change of its lines."""
    events = []
    for line in change(steps.expected(name)):
        kind, rest = line[:8].strip(), line[9:]
        rest, answer = rest.rsplit(": ", 1) if kind != "output" and ": " in rest else (rest, "")
        events.append(steps.Event(kind, rest.removesuffix(" to write").split(" -> ") if kind != "output" else [rest], answer))
    return events


def without(text):
    """Leaves the first line out that ends so."""
    def change(lines):
        """The lines without it."""
        k = next(k for k, it in enumerate(lines) if it.endswith(text))
        return lines[:k] + lines[k + 1:]
    return change


def earlier(text, before):
    """The first line that begins with the text stands before the first that begins with the other one."""
    def change(lines):
        """The lines in the other order."""
        line = next(it for it in lines if it.startswith(text))
        rest = [it for it in lines if it is not line]
        k = next(k for k, it in enumerate(rest) if it.startswith(before))
        return rest[:k] + [line] + rest[k:]
    return change


INBOX = "Mail/inbox"

# Each rule of the steps with an order that breaks it: the expected text, and how its lines are changed.
STEPS = [
    ("a message that is not synced", steps.synced_files, "inc", earlier(f"link     {INBOX}/own-temp_0", f"sync     {INBOX}/own-temp_0")),
    ("a line before the sync", steps.synced_lines, "inc", earlier('output   "   4', f"sync     {INBOX}/own-temp_0")),
    ("a line between link and sync", steps.synced_lines, "inc", earlier('output   "   4', f"unlink   {INBOX}/own-temp_0")),
    ("a discard before the put", steps.synced_discards, "refile", earlier(f"unlink   {INBOX}/own-held_1", "create   Mail/a/own-temp_0")),
    ("a discard before the sync", steps.synced_discards, "refile", lambda lines: [it for it in lines if it != "sync     Mail/a"]),
    ("a discard before the second put", steps.synced_discards, "refile-two",
     earlier(f"unlink   {INBOX}/own-held_2", "create   Mail/b/own-temp_1")),
    ("a held name that goes before its number", steps.synced_discards, "mend",
     earlier(f"unlink   {INBOX}/dead-held_3", f"link     {INBOX}/dead-held_3")),
    ("a held name that goes before its slot", steps.synced_discards, "sortm",
     earlier(f"unlink   {INBOX}/own-held_3", f"link     {INBOX}/own-held_2")),
    ("a cut that is not the last", steps.cut_last, "inc", earlier("cut", "rename")),
    ("a cut without its lock", steps.cut_last, "inc", without("lock     drop")),
    ("a drop that is read without its lock", steps.read_locked, "inc", without("lock     drop")),
    ("a drop that is read without its lock file", steps.read_locked, "inc", without("link     drop.lock.mh -> drop.lock")),
    ("a change without the lock", steps.under_lock, "mark", without(f"lock     {INBOX}")),
    ("a change after the lock", steps.under_lock, "mark", earlier(f"unlock   {INBOX}", "create")),
    ("a change that is never synced", steps.safe_at_last, "rmm", lambda lines: [it for it in lines if it != f"sync     {INBOX}"]),
    ("a rename onto a number", steps.replaced_never, "refile", lambda lines: ["rename   Mail/a/own-temp_0 -> Mail/a/1", *lines]),
]


def of_steps():
    """Each rule of the steps, with its complaints of an order that is broken and of the one that is expected."""
    for name, rule, text, change in STEPS:
        yield name, rule(order(text, change)), rule(order(text))


def of_ends(room):
    """What a command's end must be under faults and hostile bytes, and what rivals may see."""
    ran = lambda status, err: subprocess.CompletedProcess([], status, b"", err)
    case = hostile.Case(None)
    box = case.make("none", f"{room}/case")
    yield "a fault without its line", faults.ended_clearly(ran(2, b"")), faults.ended_clearly(ran(2, b"mh: fault of files\n"))
    yield "an unknown status", faults.ended_clearly(ran(101, b"mh: x\n")), faults.ended_clearly(ran(0, b""))
    yield "a death by a signal", hostile.ended_well("drop", ran(-11, b"")), hostile.ended_well("drop", ran(1, b"mh: not a mail drop\n"))
    yield "a drop that was not taken in", hostile.drop_taken(case, box, ran(0, b"")), []
    scene = rivals.Scene("none", f"{room}/rivals", random.Random(1), 0, False)
    scene.lines(b"   1 12 message 1 plain\n")
    torn_line, scene.bad = scene.bad, []
    scene.lines(f"   1 {len(scene.known['message 1 plain'])} message 1 plain\n".encode())
    yield "a line of a torn message", torn_line, scene.bad
    marker = rivals.Marker("ours", "mine")
    fine = rivals.sequences_sound(scene.box.look(), [marker])
    marker.expected["a", "ours"] = {1}
    yield "a mark that is lost", rivals.sequences_sound(scene.box.look(), [marker]), fine
    write(f"{scene.box.mail}/a/.mh_sequences", b"red: 1\n")
    yield "a mark that passed to another message", rivals.sequences_sound(scene.box.look(), []), []


def run(program, seconds, room, count, rng, only=""):
    """Shows each rule what is broken and what is whole. It takes no more time in an hour than in a minute."""
    for part in (of_books(room), of_steps(), of_ends(room)):
        for name, broken, whole in part:
            count.check(f"the harness sees {name}", ([] if broken else ["it doesn't"]) + [f"though all is whole: {it}" for it in whole])
