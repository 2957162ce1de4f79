"""The parts of messages, read a second time by Python's email package: mime.py PROGRAM DIRECTORY. The last line is 'N passed, M failed'.

Of each message `mhlist` and `mhstore` tell the parts, their types and descriptions, and what those carry that hold no others; email tells
the same. Where both are known to differ, the reason stands beside the message, with what the program is to say of it."""
import email
import email.policy
import os
import subprocess
import sys

PROGRAM, ROOM = sys.argv[1:]
HOME, WORK = f"{ROOM}/home", f"{ROOM}/work"
passed = failed = 0


def check(name, good, *seen):
    global passed, failed
    if good:
        passed += 1
    else:
        failed += 1
        print(f"failed: {name}", *seen)


def part(body="a\n", kind="", encoding="", more=""):
    """A part with these fields, or a message."""
    kind = kind and f"Content-Type: {kind}\n"
    encoding = encoding and f"Content-Transfer-Encoding: {encoding}\n"
    return kind + encoding + more + "\n" + body


def multi(*parts, kind="mixed", boundary="x", named="x", before="", behind="", more=""):
    """A multipart: its parts between lines of a boundary, which its field names so."""
    lines = "".join(f"--{boundary}\n{it}\n" for it in parts)
    return part(f"{before}{lines}--{boundary}--\n{behind}", f"multipart/{kind}; boundary={named}", more=more)


KINDS = ["mixed", "alternative", "parallel", "digest", "related", "signed", "report", "x-own"]
LETTER = "From: a@b\nSubject: s\n\nletter\n"
LONG = "".join(chr(33 + n % 90) for n in range(70)).replace('"', "_").replace("\\", "_")


def kinds():
    """Multiparts of each kind, alone and in one another, with line feeds and with carriage returns."""
    for kind in KINDS:
        for before, behind in (("", ""), ("before\n", "\nbehind\n")):
            inner = LETTER if kind == "digest" else "a"
            text = multi(part(inner, "text/plain"), "\n" + inner, kind=kind, before=before, behind=behind)
            yield f"{kind} {len(behind)}", text
            yield f"{kind} {len(behind)} with returns", text.replace("\n", "\r\n")
        for other in KINDS:
            yield f"{other} in {kind}", multi("\nfirst: a\n\nb", multi("\nin: a\n\nb", kind=other, boundary="y", named="y"), "\nlast: a\n\nb", kind=kind)


def messages():
    """Messages in messages."""
    for encoding in ("", "7bit", "8bit", "binary", "8BIT"):
        yield f"a message, {encoding}", part(LETTER, "message/rfc822", encoding)
    yield "a message in a message", part(part(LETTER, "message/rfc822"), "message/rfc822")
    yield "a message of capitals", part(LETTER, "Message/RFC822")
    yield "a multipart in a message", part(multi("\na", "\nb"), "message/rfc822")
    yield "a message in a multipart", multi(part(LETTER, "message/rfc822"), "\nb")
    yield "a multipart in a message in a multipart", multi(part(multi("\na", boundary="y", named="y"), "message/rfc822"), "\nb")
    yield "an encoded letter in a message", part(part("SGk=\n", encoding="base64"), "message/rfc822")
    yield "a digest, one with a type", multi("\n" + LETTER, part("<p>", "text/html"), part(LETTER, "message/rfc822"), kind="digest")
    yield "a digest with fields of parts", multi(part(LETTER, more="X-Own: a\n"), kind="digest")
    yield "a digest of a multipart's message", multi("\n" + multi("\na", boundary="y", named="y"), kind="digest")
    yield "an empty message in a message", part("", "message/rfc822")
    yield "a message without fields", part("\nbody\n", "message/rfc822")


TYPES = [
    "text/html", "Text/HTML", "TEXT/plain; charset=us-ascii", "text/plain;charset=utf-8", "text/plain ; charset = utf-8", " text/plain", "text/plain\n ;\n charset=utf-8",
    "application/vnd.x-y.z+json", "application/octet-stream; name=\"a;b\"", "application/x; a=\"\\\"\"", "application/x; a=\"\\\\\"", "application/x; a=b; a=c",
    "text/plain (a comment)", "text/plain; charset=us-ascii (Plain text)", "(first) text/html", "text/html (a (b) c)", "text/html; (c) a=b", "application/x; a=\"(c)\"",
    "text", "text/", "/plain", "", "?", "a/b/c", "video/x!#$%&'*+-.^_`{|}~", "x/y; a=\"\"", "x/y; a*0=b; a*1=c", "x/y; name*=utf-8''%C3%A9",
]


def types():
    for value in TYPES:
        yield f"the type {value!r}", part("body\n", value)
    yield "a field of another case", "CONTENT-TYPE: text/html\n\nbody\n"
    yield "two fields", "Content-Type: text/html\nContent-Type: text/x\n\nbody\n"
    yield "no field", "Subject: a\n\nbody\n"
    yield "fields alone", "Subject: a\n"
    yield "a version", "MIME-Version: 1.0\nContent-Type: image/png\n\nbody\n"
    yield "a folded field", "Content-Type:\n\tmultipart/mixed;\n\tboundary=\"x\"\n\n--x\n\na\n--x--\n"


# How a boundary is named, and the text of its lines.
BOUNDARIES = [
    ("x", "x"), ('"x"', "x"), ('"x y"', "x y"), ('"x:=?/"', "x:=?/"), ("=_x".join('""'), "=_x"), ('"\\x"', "x"), ('"a\\"b"', 'a"b'), ("x; boundary=y", "x"),
    ("x; charset=y", "x"), ("x; type=\"a;b\"", "x"), ("-", "-"), ("--", "--"), ("x--", "x--"), ('"(x)"', "(x)"), (f'"{LONG}"', LONG), ("0" * 70, "0" * 70),
    ("a+b.c", "a+b.c"), ("x (comment)".join('""'), "x (comment)"), ("\n x", "x"), ("X", "X"), (" x ", "x"),
]


def boundaries():
    for named, text in BOUNDARIES:
        yield f"the boundary {named!r}", multi("\na", "\nb", named=named, boundary=text)
    yield "a parameter before it", part("--x\n\na\n--x--\n", "multipart/mixed; charset=a; boundary=x")
    yield "a comment behind it", part("--x\n\na\n--x--\n", "multipart/mixed; boundary=x (c)")
    yield "its name in capitals", part("--x\n\na\n--x--\n", "multipart/mixed; BOUNDARY=x")
    for blanks in (" ", "\t", "  \t "):
        yield f"blanks behind its lines, {blanks!r}", part(f"--x{blanks}\n\na\n--x{blanks}\n\nb\n--x--{blanks}\nbehind\n", "multipart/mixed; boundary=x")
    for line in ("--xy", "-- x", "--x-", "--x -", "--X", " --x", "-x", "--", "--x---", "--x--y", "x", "---x", "--x.", "> --x"):
        yield f"a line that is none, {line!r}", multi(f"\n{line}\na\n{line}", "\nb")
    for inner in ("xy", "x-", "x y", "X", "y", "x.x"):
        yield f"one that begins so within, {inner!r}", multi(multi("\na", "\nb", boundary=inner, named=f'"{inner}"'), "\nc")
        yield f"one that begins so around, {inner!r}", multi(multi("\na", "\nb"), "\nc", boundary=inner, named=f'"{inner}"')
    yield "no boundary", part("--x\n\na\n--x--\n", "multipart/mixed")
    yield "another boundary", part("--y\n\na\n--y--\n", "multipart/mixed; boundary=x")
    yield "no lines", part("", "multipart/mixed; boundary=x")
    yield "a preamble alone", part("before\n", "multipart/mixed; boundary=x")
    yield "one part", multi("\na")
    yield "the closing line behind the first line", part("--x\n--x--\n", "multipart/mixed; boundary=x")
    yield "an empty part", multi("\n", "\nb")
    yield "a part of fields alone", multi("Content-Type: text/html\n", "\nb")
    yield "no line end behind the last line", part("--x\n\na\n--x--", "multipart/mixed; boundary=x")
    yield "what follows looks like a part", multi("\na", behind="--x\n\nb\n--x--\n")
    yield "a part that begins with empty lines", multi("\n\n\na\n\n", "\nb")
    yield "an inner one that isn't closed", multi(part("--y\n\na\n--y\n\nb", "multipart/mixed; boundary=y"), "\nc")
    yield "three that aren't closed but the outermost", multi(part("--y\n" + part("--z\n\na", "multipart/mixed; boundary=z"), "multipart/mixed; boundary=y"), "\nc")
    yield "one of base64 that isn't closed", part("--x\n" + part("SGk=\n", encoding="base64"), "multipart/mixed; boundary=x")
    yield "the outer line within the inner one", multi(part("--y\n\na\n--x\n\nb\n--y--", "multipart/mixed; boundary=y"))
    yield "the inner line behind the inner one", multi(multi("\na", boundary="y", named="y", behind="--y\n\nb"), "\nc")
    deep = "\na"
    for n in range(20):
        deep = multi(deep, boundary=f"b{n}", named=f"b{n}")
    yield "twenty in one another", deep
    yield "a hundred parts", multi(*(f"\n{n}" for n in range(100)))


BASE64 = [
    "SGVsbG8h\n", "SGVs\nbG8h\n", "SGVsbG8h", "SGk=\n", "SA==\n", "SGk\n", "SA\n", "", "\n", " S G k = \n", "SG!k=\n", "SG\x00k=\n", "<SGk=>\n", "SGk=\nSGk=\n", "SGk=junk\n", "====\n",
    "SGk=\n\n-- \nSGk=\n", "SGVsbG8h\r\nSGk=\r\n", "SGk-_w==\n", "é SGk=\n", "A" * 76 + "\n" + "/" * 76 + "\n", "AAECAwQFBgcICQ==\n", "+/+/\n", "SB==\n",
]
PRINTABLE = [
    "a=3Db\n", "a=3db\n", "a=\nb\n", "a=\r\nb\r\n", "=41=42=\n=43\n", "caf=C3=A9\n", "=00=FF\n", "a b\n", "a\n\n\nb\n", "_a_\n", "é\n", "=\n=\na\n", "a =\n b\n", "a=20\n", "a=09\n", "=3D=3D",
    "a=4\n", "a=4G\n", "a=G4b\n",
]
ENCODINGS = ["base64", "BASE64", "Base64", " base64", "7bit", "8bit", "binary", "x-own", "", "\"base64\"", "base-64", "base64; a=b", "quoted-printable", "QUOTED-PRINTABLE", "quoted_printable", "base64 (c)"]


def encodings():
    for text in BASE64:
        yield f"base64 {text[:30]!r}", part(text, "application/x", "base64")
    for text in PRINTABLE:
        yield f"quoted-printable {text!r}", part(text, "text/plain", "quoted-printable")
    for name in ENCODINGS:
        yield f"the encoding {name!r}", part("SGk=3D\n", "text/plain", name)
    yield "two encodings", part("SGk=\n", "text/plain", "base64\nContent-Transfer-Encoding: 7bit")
    yield "all bytes but a return", part("".join(map(chr, range(256))).replace("\r", ""), "application/x")
    yield "encoded parts", multi(part("SGk=\n", "a/b", "base64"), part("a=\n", "a/c", "quoted-printable"), part("=41", "a/d", "7bit"), part("=41", "a/e", "quoted-printable"))


DESCRIPTIONS = [
    "prices", " blanks  around ", "=?utf-8?q?caf=C3=A9?=", "=?utf-8?b?Y2Fmw6k=?= =?utf-8?q?_two?=", "=?iso-8859-1?q?caf=E9?= plain", "plain =?us-ascii?q?a_b?= plain", "folded\n over\n\tlines",
    "", "(no comment)", "\"quotes\"", "=?utf-8?q?half", "=?utf-8?x?a?=", "日本",
]


def descriptions():
    for text in DESCRIPTIONS:
        yield f"the description {text!r}", multi(part("a", "text/plain", more=f"Content-Description: {text}\n"), "\nb")
    yield "two descriptions", part(more="Content-Description: one\nContent-Description: two\n")


def fields():
    """Where fields end."""
    yield "no fields", "\nbody\n"
    yield "nothing", ""
    yield "an empty line alone", "\n"
    yield "a part that begins with text", multi("no field\n\na", "\nb")
    yield "text behind a field", "Content-Type: text/html\nno field\n\nbody\n"
    yield "a line of blanks behind the fields", "Content-Type: text/html\n \nX: y\n\nbody\n"
    yield "returns", "Content-Type: text/html\r\nX: y\r\n\r\nbody\r\n"
    yield "returns in a multipart of line feeds", multi("\na\r", "\r\nb\r")


# RFC 2046, section 5.1.1, and RFC 2049, appendix A
SIMPLE = """From: Nathaniel Borenstein <nsb@bellcore.com>
To: Ned Freed <ned@innosoft.com>
Date: Sun, 21 Mar 1993 23:56:48 -0800 (PST)
Subject: Sample message
MIME-Version: 1.0
Content-type: multipart/mixed; boundary="simple boundary"

This is the preamble.  It is to be ignored, though it
is a handy place for composition agents to include an
explanatory note to non-MIME conformant readers.

--simple boundary

This is implicitly typed plain US-ASCII text.
It does NOT end with a linebreak.
--simple boundary
Content-type: text/plain; charset=us-ascii

This is explicitly typed plain US-ASCII text.
It DOES end with a linebreak.

--simple boundary--

This is the epilogue.  It is also to be ignored.
"""
COMPLEX = """MIME-Version: 1.0
From: Nathaniel Borenstein <nsb@nsb.fv.com>
To: Ned Freed <ned@innosoft.com>
Date: Fri, 07 Oct 1994 16:15:05 -0700 (PDT)
Subject: A multipart example
Content-Type: multipart/mixed;
              boundary=unique-boundary-1

This is the preamble area of a multipart message.
Mail readers that understand multipart format
should ignore this preamble.

--unique-boundary-1

  ... Some text appears here ...

--unique-boundary-1
Content-type: text/plain; charset=US-ASCII

This could have been part of the previous part, but
illustrates explicit versus implicit typing of body
parts.

--unique-boundary-1
Content-Type: multipart/parallel; boundary=unique-boundary-2

--unique-boundary-2
Content-Type: audio/basic
Content-Transfer-Encoding: base64

YXVkaW8=

--unique-boundary-2
Content-Type: image/jpeg
Content-Transfer-Encoding: base64

aW1hZ2U=

--unique-boundary-2--

--unique-boundary-1
Content-type: text/enriched

This is <bold><italic>enriched.</italic></bold>

--unique-boundary-1
Content-Type: message/rfc822

From: (mailbox in US-ASCII)
To: (address in US-ASCII)
Subject: (subject in US-ASCII)
Content-Type: Text/plain; charset=ISO-8859-1
Content-Transfer-Encoding: Quoted-printable

  ... Additional text in ISO-8859-1 goes here ...

--unique-boundary-1--
"""
# RFC 2046, section 5.1.5
DIGEST = """From: Moderator-Address
To: Recipient-List
Date: Mon, 22 Mar 1994 13:34:51 +0000
Subject: Internet Digest, volume 42
MIME-Version: 1.0
Content-Type: multipart/mixed;
              boundary="---- main boundary ----"

------ main boundary ----

  ...Introductory text or table of contents...

------ main boundary ----
Content-Type: multipart/digest;
              boundary="---- next message ----"

------ next message ----

From: someone-else
Date: Fri, 26 Mar 1993 11:13:32 +0200
Subject: my opinion

  ...body goes here ...

------ next message ----

From: someone-else-again
Date: Fri, 26 Mar 1993 10:07:13 -0500
Subject: my different opinion

  ... another body goes here ...

------ next message ------

------ main boundary ------
"""


def standards():
    for name, text in (("RFC 2046, 5.1.1", SIMPLE), ("RFC 2049, A", COMPLEX), ("RFC 2046, 5.1.5", DIGEST)):
        yield name, text
        yield f"{name} with returns", text.replace("\n", "\r\n")


def ours(count):
    """What the program says of each message: of each part its path and type, as they stand in its row, its description and what it carries."""
    listed = subprocess.run([PROGRAM, "mhlist", "+inbox", "all"], env={"HOME": HOME}, cwd=WORK, capture_output=True)
    stored = subprocess.run([PROGRAM, "mhstore", "+inbox", "all"], env={"HOME": HOME}, cwd=WORK, capture_output=True)
    check("all are listed and stored", (listed.returncode, listed.stderr, stored.returncode, stored.stderr) == (0, b"", 0, b""), listed.stderr, stored.stderr)
    files = {}
    for line in stored.stdout.decode().splitlines():
        _, _, number, _, path, *_, name = line.split()
        with open(f"{WORK}/{name}", "rb") as f:
            files.setdefault(int(number), []).append((path, f.read()))
    check("no other name is left", len(os.listdir(WORK)) == sum(map(len, files.values())))
    rows = {}
    for line in listed.stdout.decode().splitlines()[1:]:
        rows.setdefault(int(line[:4]), []).append((line[5:12].strip(), line[13:37].strip().lower(), int(line[38:46]), line[47:]))
    return [(rows[n], files[n]) for n in range(1, count + 1)]


def kind_of(part):
    """By the field as it is parsed with its comments; without it, what the part around says."""
    field = part["content-type"]
    return part.get_content_type() if field is None else field.content_type


def theirs(part, path=()):
    """What email says: the path of each part, its type, its description, and its bytes where it holds no others."""
    kids = part.get_payload() if part.is_multipart() else []
    yield ".".join(map(str, path)) or "-", kind_of(part), str(part["content-description"] or ""), None if kids else part.get_payload(decode=True)
    for n, kid in enumerate(kids, 1):
        yield from theirs(kid, (*path, n))


def squeezed(text):
    return " ".join(text.split())


def described(row):
    """The description of a row, without a note behind it."""
    for note in ("[unclosed]", "[no boundary]", "[too deep]"):
        row = row.removesuffix(note)
    return squeezed(row)


def same(rows, files, other):
    """Do rows and files tell what email tells? Rows cut paths and types to their columns."""
    told = [(path, kind, described(more)) for path, kind, _, more in rows]
    return (told == [(path[:7], kind[:24], squeezed(more)) for path, kind, more, _ in other]
            and files == [(path, content) for path, _, _, content in other if content is not None])


CASES = [case for table in (kinds, messages, types, boundaries, encodings, descriptions, fields, standards) for case in table()]

# What email is known to read otherwise: why, and path, type and bytes of the parts that the program is to store.
ODD = [
    ("an apostrophe in a token", multi("\na", boundary="'x", named="'x"), "email loses it, which RFC 2045 lets stand in a token", [("1", "text/plain", b"a")]),
    ("a semicolon at the end of a type", part("b\n", "text/html;"), "no parameter follows it, so this is no type by RFC 2045, and plain text by its section 5.2", [("-", "text/plain", b"b\n")]),
    ("a semicolon at the end of a multipart", part("--x\n\na\n--x--\n", "multipart/mixed; boundary=x;"), "so too: this is plain text", [("-", "text/plain", b"--x\n\na\n--x--\n")]),
    ("an equals sign in a token", multi("\na", boundary="a=b", named="a=b"), "RFC 2045 lets it stand only in quotes", [("-", "text/plain", b"--a=b\n\na\n--a=b--\n")]),
    ("a parameter without a value", part("b\n", "text/html; charset"), "it is no type of that form", [("-", "text/plain", b"b\n")]),
    ("a boundary by RFC 2231", part("--x\n\na\n--x--\n", "multipart/mixed; boundary*=us-ascii''x"), "its parameters aren't read", [("-", "multipart/mixed", b"--x\n\na\n--x--\n")]),
    ("an empty boundary", part("--\n\na\n----\n", 'multipart/mixed; boundary=""'), "RFC 2046 wants a character at least", [("-", "multipart/mixed", b"--\n\na\n----\n")]),
    ("a boundary of 71 characters", multi("\na", boundary="0" * 71, named="0" * 71), "RFC 2046 allows 70", [("-", "multipart/mixed", b"--%s\n\na\n--%s--\n" % (b"0" * 71, b"0" * 71))]),
    ("a type that is none in a digest", multi(part(LETTER, "?"), kind="digest"), "email takes it for plain text, not for what parts of a digest are", [("1.1", "text/plain", b"letter\n")]),
    ("an encoded multipart", part("--x\n\na\n--x--\n", "multipart/mixed; boundary=x", "base64"), "RFC 2045 forbids it; email cuts it as it stands, the program decodes it: x, a and x are symbols", [("-", "multipart/mixed", b"\xc5\xac")]),
    ("an encoded message", part("U3ViamVjdDogcwoKaGkK\n", "message/rfc822", "base64"), "RFC 2046 forbids it; email parses the encoded text", [("-", "message/rfc822", b"Subject: s\n\nhi\n")]),
    ("a part of a message", part(LETTER, "message/partial; id=a"), "its body is no whole message", [("-", "message/partial", LETTER.encode())]),
    ("a report of delivery", part("A: b\n\nC: d\n", "message/delivery-status"), "its fields are no messages", [("-", "message/delivery-status", b"A: b\n\nC: d\n")]),
    ("the last part, without a closing line", part("--x\n\na\n--x\n\nb\n", "multipart/mixed; boundary=x"), "no line follows to which its line end belongs", [("1", "text/plain", b"a"), ("2", "text/plain", b"b\n")]),
    ("two boundary lines together", part("--x\n--x\n\na\n--x--\n", "multipart/mixed; boundary=x"), "email takes both for one; an empty part is what is between", [("1", "text/plain", b""), ("2", "text/plain", b"a")]),
    ("a closing line alone", part("--x--\n--x\n\na\n", "multipart/mixed; boundary=x"), "there is no part, and email loses the body", [("-", "multipart/mixed", b"--x--\n--x\n\na\n")]),
    ("no boundary within", multi(part("--y\n\na\n--y--", "multipart/mixed"), "\nb"), "email leaves it the line end that belongs to the boundary line", [("1", "multipart/mixed", b"--y\n\na\n--y--"), ("2", "text/plain", b"b")]),
    ("both of one boundary", multi(part("before", "multipart/mixed; boundary=x"), "\nb"), "so too", [("1", "multipart/mixed", b"before"), ("2", "text/plain", b"b")]),
    ("base64 of five characters", part("SGVsb\n", "a/b", "base64"), "email gives the text as it stands where one is left over", [("-", "a/b", b"Hel")]),
    ("base64 of one character", part("S", "a/b", "base64"), "so too", [("-", "a/b", b"")]),
    ("base64 with a padding character within", part("SG=k\n", "a/b", "base64"), "RFC 2045 takes the first one for the end", [("-", "a/b", b"H")]),
    ("quoted-printable with blanks at the end of a line", part("a  \nb\t\n", "a/b", "quoted-printable"), "RFC 2045 deletes them", [("-", "a/b", b"a\nb\n")]),
    ("quoted-printable with blanks behind a soft break", part("a= \nb=\t \nc\n", "a/b", "quoted-printable"), "so too", [("-", "a/b", b"abc\n")]),
    ("quoted-printable with two equals signs", part("a==\n", "a/b", "quoted-printable"), "the first stands for itself, the second is a soft break", [("-", "a/b", b"a=")]),
    ("quoted-printable with an equals sign before a code", part("a==41\n", "a/b", "quoted-printable"), "so too, and the second is a code", [("-", "a/b", b"a=A\n")]),
    ("quoted-printable with an equals sign at the end", part("a=", "a/b", "quoted-printable"), "no line ends there", [("-", "a/b", b"a=")]),
    ("quoted-printable with two returns", part("=\r\r\na\n", "a/b", "quoted-printable"), "a return ends no line by itself", [("-", "a/b", b"=\r\r\na\n")]),
    ("an encoding with a blank behind it", part("SGk=\n", "a/b", "base64 "), "email knows only base64 without it", [("-", "a/b", b"Hi")]),
    ("an encoding of old", part("begin 644 a\n\"2&D \n \nend\n", "a/b", "x-uuencode"), "RFC 2045 has no such one", [("-", "a/b", b"begin 644 a\n\"2&D \n \nend\n")]),
    ("returns as line ends", "Content-Type: text/html\r\rbody\r", "a return ends no line by itself", [("-", "text/plain", b"")]),
    ("a continued first line", " continued\nContent-Type: text/html\n\nbody\n", "email passes it; here no field begins", [("-", "text/plain", b" continued\nContent-Type: text/html\n\nbody\n")]),
    ("a blank before a colon", "Content-Type : text/html\n\nbody\n", "RFC 5322 reads it, section 4.5", [("-", "text/html", b"body\n")]),
    ("a line of a drop", "From a@b Tue Jun  2 10:00:00 2026\nContent-Type: text/html\n\nbody\n", "email passes it; here no field begins", [("-", "text/plain", b"From a@b Tue Jun  2 10:00:00 2026\nContent-Type: text/html\n\nbody\n")]),
]


def read_by_hand(rows, files):
    """Path, type and bytes of the parts that are stored."""
    kinds = {path: kind for path, kind, _, _ in rows}
    return [(path, kinds[path], content) for path, content in files]


def main():
    os.makedirs(f"{HOME}/Mail/inbox")
    os.makedirs(WORK)
    texts = [text.encode("utf-8") for text in [text for _, text in CASES] + [text for _, text, _, _ in ODD]]
    for n, text in enumerate(texts, 1):
        with open(f"{HOME}/Mail/inbox/{n}", "wb") as f:
            f.write(text)
    told = ours(len(texts))
    others = [list(theirs(email.message_from_bytes(text, policy=email.policy.default))) for text in texts]
    for (name, _), text, (rows, files), other in zip(CASES, texts, told, others):
        check(name, same(rows, files, other), text, "\n   ", rows, files, "\n   ", other)
        check(f"sizes of {name}", {path: size for path, _, size, _ in rows}.items() >= {path[:7]: len(content) for path, content in files}.items())
    for (name, text, why, want), (rows, files), other in zip(ODD, told[len(CASES):], others[len(CASES):]):
        check(name, read_by_hand(rows, files) == want, text, "\n   ", rows, files)
        print(f"email {'reads the same of' if same(rows, files, other) else 'differs'}: {name}: {why}")
    print(f"{len(CASES)} messages were read by email too, and {len(ODD)} by hand")
    print(f"{passed} passed, {failed} failed")


main()
