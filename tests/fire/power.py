"""Power cuts: the mailbox stands on a file system in a file. A command is killed when it enters a call that changes or syncs something, and the
file is copied at once, without what the system still has in memory; the copy is mounted, mended, and the books are looked at."""
import os
import shutil
import subprocess
import time

from allowed import CALLS, Recorded
from books import Box
from dying import COMMANDS, Scene, again, books, late, mend

# How each file system is made, mounted so that it writes nothing by itself, and how large it is.
SYSTEMS = {
    "ext4": (["mkfs.ext4", "-q", "-F"], "loop,commit=600", 24 << 20),
    "xfs": (["mkfs.xfs", "-q", "-f"], "loop", 300 << 20),
    "btrfs": (["mkfs.btrfs", "-q", "-f"], "loop,commit=300", 120 << 20),
}


def ran(*words):
    """Whether a command ended well."""
    return subprocess.run(words, capture_output=True).returncode == 0


class Image:
    """A file system in a file, its copy after the cut, and where each is mounted."""

    def __init__(self, room, system):
        make, self.options, size = SYSTEMS[system]
        self.empty, self.now, self.cut = (f"{room}/{system}.{it}" for it in ("empty", "now", "cut"))
        self.here, self.there = f"{room}/{system}-here", f"{room}/{system}-there"
        for it in (self.here, self.there):
            os.makedirs(it, exist_ok=True)
        with open(self.empty, "wb") as f:
            f.truncate(size)
        self.works = ran(*make, self.empty) and self.begin() and self.end()

    def begin(self):
        """An empty file system is mounted."""
        return ran("cp", "--sparse=always", self.empty, self.now) and ran("mount", "-o", self.options, self.now, self.here)

    def power_fails(self):
        """What the disk has at this moment is kept."""
        return ran("cp", "--sparse=always", self.now, self.cut)

    def starts_again(self):
        """What was kept is mounted, as a machine finds it that starts again."""
        return self.end() and ran("mount", "-o", "loop", self.cut, self.there)

    def end(self):
        """Nothing is mounted any more."""
        for it in (self.here, self.there):
            if os.path.ismount(it):
                ran("umount", it)
        return not os.path.ismount(self.here) and not os.path.ismount(self.there)


def cut(scene, image, rng, at_end):
    """One power cut: complaints, and where it came."""
    if not image.begin():
        return ["the image can't be mounted"], ""
    box = scene.box.copy(f"{image.here}/box")
    ran("sync", "-f", image.here)
    recorded, trace, how = Recorded(box.home), f"{scene.room}/power-trace", "behind the end"
    before = ["strace", "-qq", "-y", "-o", trace, "-e", f"trace={CALLS}"]
    if not at_end:
        call, k = scene.calls_made()[late(rng, len(scene.calls_made()))]
        how = f"at {call} {k}"
        before = [*before[:-1], f"trace={CALLS},{call}", "-e", f"inject={call}:signal=KILL:when={k}"]
    out = box.start(*scene.case.words, before=before).communicate(timeout=60)[0]
    kept = image.power_fails()
    recorded.read(trace)
    written = recorded.bytes_now()
    if not kept or not image.starts_again():
        return ["the image can't be mounted after the cut"], how
    there = Box(box.program, f"{image.there}/box")
    return recorded.complaints(there.home, written) + judged(scene, there, out, at_end), how


def judged(scene, box, out, at_end):
    """The books as the machine finds them, once the folders were begun, and after the command was run again."""
    first = box.look()
    bad = books(scene, [scene.before, first], out, False)
    if at_end:
        bad += [f"{what} is not what the command made" for what in ("numbers", "backups", "public", "drop")
                if getattr(first, what) != getattr(scene.after, what)]
    bad += mend(box, first, scene.case)
    mended = box.look()
    bad += books(scene, [scene.before, first, mended], out, True)
    return bad + again(scene, box, [scene.before, first, mended])


def why_not(system):
    """Why no power can be cut here; nothing where it can."""
    if os.geteuid() != 0:
        return "this is not root"
    for tool in ("strace", SYSTEMS[system][0][0], "mount"):
        if shutil.which(tool) is None:
            return f"there is no {tool}"
    return ""


def run(program, seconds, room, count, rng, only=""):
    """Cuts on ext4, and with much time on the others; each command in turn, at random calls and once behind its end."""
    for system in [it for it in SYSTEMS if it == "ext4" or seconds > 120]:
        image, why = None, why_not(system)
        try:
            image = None if why else Image(room, system)
            if why or not image.works:
                print(f"  skipped: power cuts on {system}, since {why or 'no image of it can be mounted'}")
                continue
            share = seconds if seconds <= 120 else seconds / 3
            print(f"  {cuts(program, share, room, count, rng, only, system, image)} power cuts on {system}")
        finally:
            if image:
                image.end()


def cuts(program, seconds, room, count, rng, only, system, image):
    """One scene after another until the time is over, at least one a command: how many cuts there were."""
    end, made = time.monotonic() + seconds, 0
    names = [it for it in COMMANDS if it.startswith(only)]
    while not made or time.monotonic() < end:
        for name in rng.sample(names, len(names)):
            if made and time.monotonic() > end:
                break
            scene = Scene(program, f"{room}/{system}-scene", name, rng, 12, False)
            for at_end in (False, False, True):
                bad, how = cut(scene, image, rng, at_end)
                image.end()
                made += 1
                count.check(f"{name}, power cut on {system} {how}", bad, [("box", f"{room}/{system}-scene/box"),
                                                                         ("words", " ".join(scene.case.words).encode())])
    return made
