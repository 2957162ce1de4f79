"""Drafts become messages: build.py PROGRAM DIRECTORY. The last line is 'N passed, M failed'.

Each message that `mhbuild` makes is read by Python's email package, without a defect, and has the parts that its draft asked for. It also
prints what a large draft costs."""
import email
import email.policy
import os
import random
import subprocess
import sys
import time

PROGRAM, ROOM = sys.argv[1:]
HOME, WORK = f"{ROOM}/home", f"{ROOM}/work"
LIMIT = 67_108_864
passed = failed = 0


def check(name, good, *seen):
    global passed, failed
    if good:
        passed += 1
    else:
        failed += 1
        print(f"failed: {name}", *seen)


def write(path, data):
    os.makedirs(os.path.dirname(path), exist_ok=True)
    with open(path, "wb") as f:
        f.write(data)


def read(name):
    with open(f"{WORK}/{name}", "rb") as f:
        return f.read()


def mh(*words, given=b"", **more):
    """How it ends, and what it prints."""
    return subprocess.run([PROGRAM, "mhbuild", *words], cwd=WORK, env={"HOME": HOME}, capture_output=True, **({"input": given} | more))


def ended(name, ran, status, err, out=b""):
    check(name, (ran.returncode, ran.stdout, ran.stderr) == (status, out, err and b"mh: " + err + b"\n"), ran.returncode, ran.stdout[:200], ran.stderr)


def leaves(name, message):
    """The kinds of a message's leaves and what they carry; it has no defect."""
    found, parsed = [], email.message_from_bytes(message, policy=email.policy.default)
    for part in parsed.walk():
        check(f"{name}: no defect", not part.defects, part.defects)
        if part.get_content_maintype() == "message":
            found.append(("message/rfc822", part.get_payload(0).as_bytes()))
        elif not part.is_multipart() and not any(it[0] == "message/rfc822" and part.as_bytes() == it[1] for it in found):
            found.append((part.get_content_type(), part.get_payload(decode=True)))
    return parsed, found


def ends():
    """What is refused, and what fails."""
    ended("no words", mh(), 1, b'missing word\nmh: "mh help mhbuild" tells its switches')
    ended("a draft that is not there", mh("none"), 1, b"no such file: none")
    ended("an input with a wrong line", mh("-", given=b"Subject: t\n\n#begin mixed\nhi\n"), 1, b"bad draft at line 3")
    ended("a field that is the message's own", mh("-", given=b"Subject: t\nMIME-Version: 1.0\n\nhi\n"), 1, b"bad draft at line 2")
    ended("an input that is no file", mh("-", input=None, stdin=os.open("/", os.O_RDONLY)), 2, b"fault of input")
    ended("an input that is too long", mh("-", given=b"a" * (LIMIT + 1)), 1, f"too large: {LIMIT + 1} bytes, limit {LIMIT}".encode())
    with open("/dev/full", "w") as full:
        ran = subprocess.run([PROGRAM, "mhbuild", "-"], cwd=WORK, env={"HOME": HOME}, input=b"\nhi\n", stdout=full, stderr=subprocess.PIPE)
        check("an output that is full", (ran.returncode, ran.stderr) == (2, b"mh: fault of output\n"), ran)
    ended("a file that is not there", mh("-", given=b"\n#text/csv none.csv\n"), 1, b"no such file: none.csv")
    ended("a folder that is not there", mh("-", given=b"\n#forw +none\n"), 1, b"no such folder: +none")
    write(f"{WORK}/large", b"")
    os.truncate(f"{WORK}/large", LIMIT + 1)
    ended("a draft that is too long", mh("large"), 1, f"too large: {LIMIT + 1} bytes, limit {LIMIT}".encode())
    ended("a file that is too long", mh("-", given=b"\n#text/csv large\n"), 1, f"too large: {LIMIT + 1} bytes, limit {LIMIT}".encode())
    os.remove(f"{WORK}/large")


def names():
    """The message takes its draft's name."""
    draft = b"Subject: t\n\nh\xc3\xa9\n"
    message = b'Subject: t\nMIME-Version: 1.0\nContent-Type: text/plain; charset="utf-8"\nContent-Transfer-Encoding: quoted-printable\n\nh=C3=A9\n'
    write(f"{WORK}/letter", draft)
    ended("the input", mh("-", given=draft), 0, b"", message)
    ended("a file", mh("letter", given=b"not read"), 0, b"")
    check("the message has its name", read("letter") == message, read("letter"))
    check("the draft stays", read(",letter.orig") == draft)
    check("nothing else", sorted(os.listdir(WORK)) == [",letter.orig", "letter"], os.listdir(WORK))
    check("they are for their owner alone", os.stat(f"{WORK}/letter").st_mode & 0o777 == 0o600)
    ended("a message is no draft", mh("letter"), 1, b"bad draft at line 2")
    check("it stays", read("letter") == message)
    left, right = os.pipe()
    os.write(right, draft)
    ran = subprocess.Popen([PROGRAM, "mhbuild", "letter"], cwd=WORK, env={"HOME": HOME}, stdin=left, stderr=subprocess.PIPE)
    ran.communicate()
    check("a named draft leaves the input", os.read(left, 100) == draft)
    ran = subprocess.Popen([PROGRAM, "mhbuild", "-"], cwd=WORK, env={"HOME": HOME}, stdin=left, stdout=subprocess.PIPE)
    os.write(right, b"Subject: t\n\n")
    time.sleep(0.1)
    check("it waits for the end of its input", ran.poll() is None)
    os.write(right, b"hi\n")
    os.close(right)
    check("pieces of an input", b"\n\nhi\n" in ran.communicate()[0])
    os.close(left)
    for name in (",letter.orig", "letter"):
        os.remove(f"{WORK}/{name}")


def some_bytes(rng, kind):
    """A file of this kind."""
    if kind == "text/plain":
        lines = rng.choice([b"", b"a\n", b"h\xc3\xa9\n", b"-- \n--x\n", b"x" * rng.choice([997, 998, 999, 2000]) + b"\n", b"From here\n.\n", b"a\r\nb\n", b"a = b \n\t\n"])
        return lines * rng.choice([1, 1, 3])
    return rng.randbytes(rng.choice([0, 1, 2, 3, 57, 58, 1000]))


def some_draft(rng, depth):
    """Lines of a body, and the leaves that they ask for."""
    lines, wanted = [], []
    for n in range(rng.choice([1, 2, 3])):
        what = rng.choice(["file", "file", "text", "forw", "multi"] if depth else ["file", "text"])
        if what == "file":
            kind = rng.choice(["text/plain", "application/octet-stream", "image/png"])
            data, name = some_bytes(rng, kind), f"part{rng.randrange(10 ** 9)}"
            write(f"{WORK}/{name}", data)
            more = rng.choice(["", "; name=x", '; name="a b"', " [a description]", " <id@here>", " {inline}", "; name=x <id@here> [a b] {attachment}"])
            lines.append(f"#{kind}{more} {name}\n".encode())
            wanted.append((kind, data))
        elif what == "text":
            text = rng.choice([b"hello\n", b"##one\n", b"h\xc3\xa9\n\nmore\n", b"--\n"]) if not lines or lines[-1].startswith(b"#") and not lines[-1].startswith(b"##") else b""
            lines.append(text)
            if text:
                wanted.append(("text/plain", text.replace(b"##", b"#")))
        elif what == "forw":
            lines.append(b"#forw +inbox 1\n")
            wanted.append(("message/rfc822", b"Subject: one\n\n1\n"))
        else:
            inner, more = some_draft(rng, depth - 1)
            if more:
                lines += [b"#begin " + rng.choice([b"mixed", b"alternative", b"parallel"]) + b"\n", *inner, b"#end\n"]
                wanted += more
    return lines, wanted


def plain(kind, data):
    """As email gives it: a text without its carriage returns."""
    return data.replace(b"\r\n", b"\n") if kind == "text/plain" else data


def drafts():
    """Drafts that are made by chance."""
    rng = random.Random(29)
    for n in range(200):
        lines, wanted = some_draft(rng, 3)
        draft = b"To: ann@a.example\nSubject: t\n\n" + b"".join(lines)
        ran = mh("-", given=draft)
        check(f"draft {n}", ran.returncode == 0, draft, ran.stderr)
        if ran.returncode == 0:
            parsed, found = leaves(f"draft {n}", ran.stdout)
            wanted = wanted or [("text/plain", b"")]
            good = [(kind, plain(kind, data)) for kind, data in found] == [(kind, plain(kind, data)) for kind, data in wanted]
            check(f"draft {n}: its parts", good, draft, found, wanted)
            check(f"draft {n}: its fields", (parsed["To"], parsed["Subject"]) == ("ann@a.example", "t"))


def deaths():
    """Killed at any moment, it leaves the draft whole under one of its names, and under its name a whole draft or message, or nothing."""
    rng = random.Random(9)
    draft = b"Subject: t\n\n" + b"h\xc3\xa9 = a line of text\n" * 200_000
    write(f"{WORK}/letter", draft)
    start = time.monotonic()
    check("a large draft", mh("letter").returncode == 0)
    longest, message = time.monotonic() - start, read("letter")
    for n in range(40):
        for name in os.listdir(WORK):
            os.remove(f"{WORK}/{name}")
        write(f"{WORK}/letter", draft)
        ran = subprocess.Popen([PROGRAM, "mhbuild", "letter"], cwd=WORK, env={"HOME": HOME})
        time.sleep(rng.random() * longest * 1.1)
        ran.kill()
        ran.wait()
        stand = {name: read(name) for name in os.listdir(WORK) if not name.startswith(".mh_temp_")}
        check(f"death {n}", draft in stand.values() and stand.get("letter", draft) in (draft, message) and set(stand) <= {"letter", ",letter.orig"}, list(stand))
    for name in os.listdir(WORK):
        os.remove(f"{WORK}/{name}")


def costs():
    """A file of 40 MB, beside base64; and 20,000 lines of files."""
    data = random.Random(1).randbytes(40_000_000)
    write(f"{WORK}/large", data)
    start = time.monotonic()
    ran = mh("-", given=b"Subject: t\n\n#application/octet-stream large\n")
    took = time.monotonic() - start
    start = time.monotonic()
    beside = subprocess.run(["base64", f"{WORK}/large"], capture_output=True)
    check("a file of 40 MB", ran.returncode == 0 and ran.stdout.endswith(beside.stdout))
    print(f"mhbuild of a file of 40 MB: {took:.3f} s; base64 of it: {time.monotonic() - start:.3f} s")
    write(f"{WORK}/small", b"a\n")
    for count in (5_000, 10_000, 20_000):
        start = time.monotonic()
        ran = mh("-", given=b"Subject: t\n\n" + b"#text/plain small\n" * count)
        check(f"{count} files", ran.returncode == 0 and ran.stdout.count(b"\n\na\n") == count)
        print(f"mhbuild of {count:,} lines of files: {time.monotonic() - start:.3f} s")
    start = time.monotonic()
    ran = mh("-", given=b"Subject: t\n\n" + b"a line of text\n" * 4_000_000)
    check("a text of 60 MB", ran.returncode == 0)
    print(f"mhbuild of a text of 60 MB: {time.monotonic() - start:.3f} s")


os.makedirs(WORK)
write(f"{HOME}/Mail/inbox/1", b"Subject: one\n\n1\n")
for part in (ends, names, drafts, deaths, costs):
    part()
print(f"{passed} passed, {failed} failed")
