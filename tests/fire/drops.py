"""The drop: real deliverers append to it, each under its own locks, while `inc` runs in a loop, also two at once into two folders."""
import collections
import fcntl
import mailbox
import os
import re
import shutil
import subprocess
import threading
import time

from books import Box, write

FROM = b"From user@many.example Tue Jun  2 10:00:00 2026\n"
SUBJECT = re.compile(rb"^Subject: parcel (\S+)$", re.M)
LARGE = 5_000_000
# How long a piece of a message in the writing waits for the next one.
PAUSE = 0.002
ENDS = {0: rb"", 1: rb"mh: no mail to incorporate\n", 3: rb"mh: (\+[ab]|mail directory) is locked\n"}


def parcel(name, size):
    """A message that tells its name at its front, in each line and at its end, of about so many bytes."""
    line = f"a line of {name} ".ljust(71, ".") + "\n"
    return (f"From: user@many.example\nSubject: parcel {name}\n\n" + line * max(1, size // 72) + f"end of {name}\n").encode()


def name_in(text):
    """The name of the whole message that this is; none of a torn one, or of several."""
    found = SUBJECT.findall(text)
    if len(found) == 1 and text.rstrip(b"\n").endswith(b"end of " + found[0]):
        return found[0].decode()
    return None


def in_pieces(f, data):
    """Writes as slow deliverers do, so that a reader without a lock would see a front of it."""
    step = max(1, len(data) // 5 + 1)
    for at in range(0, len(data), step):
        os.write(f, data[at:at + step])
        time.sleep(PAUSE)


def append(path, data):
    """Writes behind what is there."""
    f = os.open(path, os.O_WRONLY | os.O_APPEND | os.O_CREAT, 0o600)
    in_pieces(f, data)
    os.close(f)


def by_flock(path, text):
    """As Dovecot and mblaze deliver."""
    f = os.open(path, os.O_WRONLY | os.O_APPEND | os.O_CREAT, 0o600)
    fcntl.flock(f, fcntl.LOCK_EX)
    in_pieces(f, FROM + text + b"\n")
    os.close(f)


def by_fcntl(path, text):
    """As Postfix and maildrop deliver."""
    f = os.open(path, os.O_RDWR | os.O_APPEND | os.O_CREAT, 0o600)
    fcntl.lockf(f, fcntl.LOCK_EX)
    in_pieces(f, FROM + text + b"\n")
    os.close(f)


def by_dot_lock(path, text, then=append):
    """As programs that lock by a file alone; over network file systems it is the one lock that all understand."""
    while True:
        try:
            os.close(os.open(f"{path}.lock", os.O_CREAT | os.O_EXCL, 0o600))
            break
        except FileExistsError:
            time.sleep(0.005)
    then(path, FROM + text + b"\n")
    os.unlink(f"{path}.lock")


def by_both(path, text):
    """As procmail, mutt and mailutils deliver: the file first, then the system's lock."""
    by_dot_lock(path, text, lambda at, data: by_fcntl(at, data[len(FROM):-1]))


def by_mailbox(path, text):
    """As Python's own library delivers."""
    box = mailbox.mbox(path)
    while True:
        try:
            box.lock()
            break
        except mailbox.ExternalClashError:
            time.sleep(0.005)
    box.add(text)
    box.flush()
    box.unlock()
    box.close()


PROCMAIL = "LOCKSLEEP=1\nMAILDIR={0}\nDEFAULT={1}\nLOGFILE={0}/procmail.log\n:0:\n{1}\n"
EXIM = """primary_hostname = many.example
spool_directory = {0}/spool
log_file_path = {0}/spool/log_%s
exim_user = root
never_users =
qualify_domain = many.example
local_interfaces =
begin acl
begin routers
all:
  driver = accept
  transport = box
begin transports
box:
  driver = appendfile
  file = {1}
  user = nobody
  group = nogroup
  mode = 0666
  check_owner = false
  mode_fail_narrower = false
  create_file = anywhere
begin retry
begin rewrite
begin authenticators
"""


def by_procmail(path, text):
    """The real program, which writes one byte of a message first. It reads no rules out of a directory that others may write to, as exim needs one."""
    home = os.path.dirname(path)
    rules = f"{home}/procmail/rc"
    if not os.path.exists(rules):
        os.makedirs(os.path.dirname(rules), 0o755, exist_ok=True)
        write(rules, PROCMAIL.format(home, path).encode())
    subprocess.run(["procmail", rules], input=FROM + text, env={"HOME": home, "PATH": os.environ["PATH"]}, timeout=60, capture_output=True, check=True)


def by_exim(path, text):
    """The real program, as root alone can run it."""
    home = os.path.dirname(path)
    if not os.path.exists(f"{home}/conf"):
        os.chmod(home, 0o777)
        os.chmod(path, 0o666)
        write(f"{home}/conf", EXIM.format(home, path).encode())
    subprocess.run(["/usr/sbin/exim4", "-C", f"{home}/conf", "-odi", "-f", "u@many.example", "bob@many.example"], input=text, timeout=60,
                   capture_output=True, check=True)


# Those that take the lock file, and so keep each other out too.
TOGETHER = ("dot lock", "dot lock and fcntl", "Python's mailbox", "procmail", "exim")
KINDS = {"flock": by_flock, "dot lock": by_dot_lock, "dot lock and fcntl": by_both, "Python's mailbox": by_mailbox,
         "procmail": by_procmail, "exim": by_exim}


def missing():
    """The deliverers that can't be tried here, each with the reason."""
    found = {}
    if shutil.which("procmail") is None:
        found["procmail"] = "it isn't installed"
    if not os.path.exists("/usr/sbin/exim4"):
        found["exim"] = "it isn't installed"
    elif os.geteuid() != 0:
        found["exim"] = "only root can run it by a configuration of its own"
    return found


class Takers:
    """`inc` in loops, each into its folder, until they are told to stop."""

    def __init__(self, box, folders):
        self.box, self.bad, self.ends, self.goes_on = box, [], collections.Counter(), True
        self.threads = [threading.Thread(target=self.take, args=(it,), daemon=True) for it in folders]

    def take(self, folder):
        """One `inc` after another."""
        while self.goes_on:
            try:
                self.ended(self.box.run("inc", f"+{folder}", "-silent"))
            except subprocess.TimeoutExpired:
                self.bad.append("inc hangs")

    def ended(self, ran):
        """Notes an end, which must be one of those allowed."""
        self.ends[ran.returncode] += 1
        if ran.returncode not in ENDS or not re.fullmatch(ENDS[ran.returncode], ran.stderr):
            self.bad.append(f"inc ended in {ran.returncode}: {ran.stderr}")

    def __enter__(self):
        for it in self.threads:
            it.start()
        return self

    def __exit__(self, *_):
        self.goes_on = False
        for it in self.threads:
            it.join()


def judged(box, names):
    """Each message that was delivered stands once and whole, and nothing else does; the drop is empty and has no lock."""
    bad, found = [], collections.Counter()
    look = box.look()
    for folder, texts in look.numbers.items():
        for n, text in texts.items():
            name = name_in(text)
            found[name] += 1
            bad += [f"{n} of {folder} is torn: {len(text)} bytes"] if name is None else []
    bad += [f"{it} is lost" for it in names if not found[it]]
    bad += [f"{it} stands {n} times" for it, n in found.items() if it and n > 1]
    bad += [f"{len(look.drop)} bytes are left in the drop"] if look.drop else []
    bad += ["a lock of the drop is left"] if os.path.exists(f"{box.home}/drop.lock") else []
    return bad


def episode(program, home, rng, seconds, kinds, folders):
    """Deliveries by each of these kinds at once, while each folder has an `inc` in a loop: complaints, and how many came."""
    box = Box(program, home).make({it: {} for it in folders}, profile=b"Path: Mail\nMailDrop: drop\n")
    names, lock, end = [], threading.Lock(), time.monotonic() + seconds

    def deliver(kind, rng):
        k = 0
        while k < 2 or time.monotonic() < end:
            name = f"{kind.replace(' ', '-')}-{k}"
            KINDS[kind](f"{home}/drop", parcel(name, LARGE if k == 1 else rng.randint(1, 4000)))
            with lock:
                names.append(name)
            k += 1
            time.sleep(rng.uniform(0, 0.02))

    with Takers(box, folders) as takers:
        threads = [threading.Thread(target=deliver, args=(it, rng), daemon=True) for it in kinds]
        for it in threads:
            it.start()
        for it in threads:
            it.join(60)
        bad = ["a delivery hangs"] if any(it.is_alive() for it in threads) else []
        time.sleep(0.3)
    takers.ended(box.run("inc", f"+{folders[0]}", "-silent"))
    return takers.bad + bad + judged(box, names), len(names), takers.ends


def killed(program, home, rng):
    """An `inc` that is killed at a random moment leaves a lock that keeps nobody: the next one goes on at once, and each message stands."""
    box = Box(program, home).make({"a": {}}, profile=b"Path: Mail\nMailDrop: drop\n")
    names = [f"kill-{k}" for k in range(40)]
    write(f"{home}/drop", b"".join(FROM + parcel(it, 60_000) + b"\n" for it in names))
    process = box.start("inc", "+a", "-silent")
    time.sleep(rng.uniform(0, 0.05))
    process.kill()
    process.communicate()
    begin = time.monotonic()
    ran = box.run("inc", "+a", "-silent")
    bad = [f"the next inc took {time.monotonic() - begin:.1f} s"] if time.monotonic() - begin > 5 else []
    bad += [] if ran.returncode in (0, 1) else [f"the next inc ended in {ran.returncode}: {ran.stderr}"]
    return bad + [it for it in judged(box, names) if "times" not in it]


def run(program, seconds, room, count, rng, only=""):
    """Each kind by itself, those that keep each other out at once, with one and with two folders, and kills; again while there is time."""
    gone = missing()
    for kind, why in gone.items():
        print(f"  skipped: {kind}, since {why}")
    kinds = [it for it in KINDS if it not in gone and it.startswith(only)]
    together = [it for it in TOGETHER if it in kinds]
    scenes = [([it], "a") for it in kinds] + [(together, "a"), (together, "ab"), (["flock"], "ab")]
    end, delivered, kills, ends, k = time.monotonic() + seconds, 0, 0, collections.Counter(), 0
    while k < len(scenes) or time.monotonic() < end:
        chosen, folders = scenes[k % len(scenes)]
        most = max(0.2, min(3, (end - time.monotonic()) / max(1, len(scenes) - k)))
        bad, n, how = episode(program, f"{room}/box", rng, most, chosen, folders)
        count.check(f"deliveries by {', '.join(chosen)}, inc into {len(folders)}", bad, [("box", f"{room}/box")])
        count.check("kills of inc", killed(program, f"{room}/killed", rng), [("box", f"{room}/killed")])
        delivered, kills, ends, k = delivered + n, kills + 1, ends + how, k + 1
    print(f"  {k} scenes, {delivered} deliveries, {sum(ends.values())} runs of inc, {kills} kills; ends: "
          + ", ".join(f"{n} in {status}" for status, n in sorted(ends.items())))
