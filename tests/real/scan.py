"""Scans a folder of two hundred messages: examples of standards, and hostile ones. scan.py PROGRAM DIRECTORY. The last line is 'N passed, M failed'."""
import os
import random
import subprocess
import sys
import time
import unicodedata

PROGRAM, HOME = sys.argv[1:]
INBOX = f"{HOME}/Mail/inbox"
passed = failed = 0


def check(name, good, *seen):
    global passed, failed
    if good:
        passed += 1
    else:
        failed += 1
        print(f"failed: {name}", *seen)


def line(number, date, star, name, rest):
    """The line of the default format by its parts, read by hand: each character here takes one column."""
    return (f"{number:4}  {date}{star}{name:17.17}  {rest}")[:80]


# Each with what its line has behind the number: the date, the mark of a missing one, who sent it, and subject and body.
READ = [
    # RFC 5322, appendix A.1.1
    ('From: John Doe <jdoe@machine.example>\nTo: Mary Smith <mary@example.net>\nSubject: Saying Hello\nDate: Fri, 21 Nov 1997 09:55:06 -0600\n'
     'Message-ID: <1234@local.machine.example>\n\nThis is a message just to say hello.\nSo, "Hello".\n',
     '11/21', ' ', 'John Doe', 'Saying Hello<<This is a message just to say hello. So, "Hello".'),
    # A.1.2
    ('From: "Joe Q. Public" <john.q.public@example.com>\nTo: Mary Smith <mary@x.test>, jdoe@example.org, Who? <one@y.test>\n'
     'Cc: <boss@nil.test>, "Giant; \\"Big\\" Box" <sysservices@example.net>\nDate: Tue, 1 Jul 2003 10:52:37 +0200\nMessage-ID: <5678.21-Nov-1997@example.com>\n\nHi everyone.\n',
     '07/01', ' ', 'Joe Q. Public', '<<Hi everyone.'),
    # A.1.3
    ('From: Pete <pete@silly.example>\nTo: A Group:Ed Jones <c@a.test>,joe@where.test,John <jdoe@one.test>;\nCc: Undisclosed recipients:;\n'
     'Date: Thu, 13 Feb 1969 23:32:54 -0330\nMessage-ID: <testabcd.1234@silly.example>\n\nTesting.\n',
     '02/13', ' ', 'Pete', '<<Testing.'),
    # A.2
    ('From: Mary Smith <mary@example.net>\nTo: John Doe <jdoe@machine.example>\nReply-To: "Mary Smith: Personal Account" <smith@home.example>\nSubject: Re: Saying Hello\n'
     'Date: Fri, 21 Nov 1997 10:01:10 -0600\nMessage-ID: <3456@example.net>\nIn-Reply-To: <1234@local.machine.example>\n\nThis is a reply to your hello.\n',
     '11/21', ' ', 'Mary Smith', 'Re: Saying Hello<<This is a reply to your hello.'),
    # A.5: comments and folding in every place
    ("From: Pete(A nice \\) chap) <pete(his account)@silly.test(his host)>\nTo:A Group(Some people)\n     :Chris Jones <c@(Chris's host.)public.example>,\n         joe@example.org,\n"
     '  John <jdoe@one.test> (my dear friend); (the end of the group)\nCc:(Empty list)(start)Hidden recipients  :(nobody(that I know))  ;\n'
     'Date: Thu,\n      13\n        Feb\n          1969\n      23:32\n               -0330 (Newfoundland Time)\nMessage-ID:              <testabcd.1234@silly.test>\n\nTesting.\n',
     '02/13', ' ', 'Pete', '<<Testing.'),
    # A.6.2: an old date
    ('From: John Doe <jdoe@machine.example>\nTo: Mary Smith <mary@example.net>\nSubject: Saying Hello\nDate: 21 Nov 97 09:55:06 GMT\nMessage-ID: <1234@local.machine.example>\n\nThis is a message.\n',
     '11/21', ' ', 'John Doe', 'Saying Hello<<This is a message.'),
    # RFC 2047, section 8
    ('From: =?US-ASCII?Q?Keith_Moore?= <moore@cs.utk.edu>\nTo: =?ISO-8859-1?Q?Keld_J=F8rn_Simonsen?= <keld@dkuug.dk>\nSubject: =?ISO-8859-1?B?SWYgeW91IGNhbiByZWFkIHRoaXMgeW8=?=\n\n',
     '00/00', '*', 'Keith Moore', 'If you can read this yo'),
    ('From: =?ISO-8859-1?Q?Olle_J=E4rnefors?= <ojarnef@admin.kth.se>\nSubject: Time for ISO 10646?\n\nx\n', '00/00', '*', 'Olle Järnefors', 'Time for ISO 10646?<<x'),
    ('From: =?ISO-8859-1?Q?Patrik_F=E4ltstr=F6m?= <paf@nada.kth.se>\nSubject: Re: RFC-HDR care of extensions\n\n', '00/00', '*', 'Patrik Fältström', 'Re: RFC-HDR care of extensions'),
    ('Subject: =?ISO-8859-1?Q?a?= =?ISO-8859-1?Q?b?=\n\n', '00/00', '*', '', 'ab'),
    ('Subject: =?ISO-8859-1?Q?a?= b\n\n', '00/00', '*', '', 'a b'),
    ('Subject: =?ISO-8859-1?Q?a?=\n    =?ISO-8859-1?Q?b?=\n\n', '00/00', '*', '', 'ab'),
    ('Subject: =?ISO-8859-1?Q?a?= =?ISO-8859-1?Q?_b?=\n\n', '00/00', '*', '', 'a b'),
    # a charset that isn't known, a word without its end, and one in capitals
    ('From: x@y\nSubject: =?KOI8-R?B?8NLJ18XU?= and =?utf-8?q?half\n\n', '00/00', '*', 'x@y', '=?KOI8-R?B?8NLJ18XU?= and =?utf-8?q?half'),
    ('From: =?UTF-8?Q?J=C3=BCrgen?= (=?UTF-8?Q?Meyer?=) <j@m>\nDate: soon\nSubject: =?UTF-8?B?R3LDvMOfZQ==?=\n\n', '00/00', ' ', 'Jürgen', 'Grüße'),
    # nothing at all; a body alone; headers alone, without an end
    ('', '00/00', '*', '', ''),
    ('\n', '00/00', '*', '', ''),
    ('\nonly a body\n', '00/00', '*', '', '<<only a body'),
    ('Subject: no end', '00/00', '*', '', 'no end'),
    ('From: a@b\r\nSubject: returns\r\nDate: Tue, 02 Jun 2026 10:00:00 +0000\r\n\r\nand\r\nlines\r\n', '06/02', ' ', 'a@b', 'returns<<and lines'),
    # blanks and tabs, and a subject that is longer than the line
    ('From:\t"  Ann   Lee "\t<ann@a>\nSubject:   many \t blanks   \n\n\n\n  x \t y\n', '00/00', '*', 'Ann Lee', 'many blanks<<x y'),
    ('From: a-name-that-is-longer-than-its-field@example\nSubject: ' + 'long ' * 40 + '\n\n', '00/00', '*', 'a-name-that-is-longer', 'long ' * 40),
    # dates that aren't
    ('Date: Tue, 31 Feb 2026 10:00:00 +0000\nSubject: no such day\n\n', '00/00', ' ', '', 'no such day'),
    ('Date: Tue, 02 Jun 99999 10:00:00 +0000\nSubject: no such year\n\n', '00/00', ' ', '', 'no such year'),
    ('Date: 2 jun 2026 10:00\nSubject: a small month\n\n', '00/00', ' ', '', 'a small month'),
    # the first field of a name counts
    ('Subject: first\nSubject: second\nFrom: one@a\nFrom: two@a\n\n', '00/00', '*', 'one@a', 'first'),
    # ten million bytes in one field, and in the body
    ('Subject: ' + 'x' * 10_000_000 + '\n\n', '00/00', '*', '', 'x' * 60),
    ('Subject: big\n\n' + 'body\n' * 2_000_000, '00/00', '*', '', 'big<<' + 'body ' * 20),
    ('Subject: folded' + '\n x' * 100_000 + '\n\n', '00/00', '*', '', 'folded' + ' x' * 40),
    (''.join(f'X-{n}: {n}\n' for n in range(100_000)) + 'Subject: behind\n\n', '00/00', '*', '', 'behind'),
]

# What no line is worked out of: only that there is one, of characters, and no wider than the terminal.
HOSTILE = [
    b'From: ' + b'(' * 1_000_000 + b'\nSubject: open comments\n\n',
    b'From: "' + b'\\"' * 500_000 + b'\nSubject: open quotes\n\n',
    b'From: ' + b'<' * 1_000_000 + b'\n\n',
    b'From: ' + b'a,' * 500_000 + b'\n\n',
    b'Subject: ' + b'=?utf-8?q?=' * 100_000 + b'\n\n',
    b'Subject: ' + b'=?utf-8?b?4pi6?= ' * 100_000 + b'\n\n',
    b'Subject: ' + '日本語'.encode() * 100_000 + b'\n\n',
    b'Subject: ' + 'e\u0301'.encode() * 100_000 + b'\n\n',
    b'Subject: \x1b[31mred\x1b[0m\x07\x08\x00\x7f\n\n\x1b]0;title\x07\n',
    b'Subject: \xff\xfe\xc3\x28\xe2\x82\n\n\xf0\x9f\x92\n',
    b'Subject: \xe2\x80\xaeleft\xe2\x80\xac\n\n',
    b'\x00' * 1000,
    b'\xff' * 1000,
    b'no colon\nSubject: behind it\n\n',
    b' continued at first\nSubject: x\n\n',
    b': no name\nSubject: x\n\n',
    b'Subject\n\nx',
    b'Subject : a blank before the colon\n\n',
    b'Date: ' + b'(' * 100_000 + b'Tue, 02 Jun 2026 10:00:00\n\n',
    b'Date: ' + b'9' * 100_000 + b' Jun 2026 10:00:00\n\n',
    b'\r' * 1000 + b'\nSubject: x\r\n\r\n',
    b'Subject: x\r\r\n\r\r\n',
]


def mutants(count):
    """Messages of which some bytes were changed, taken away or doubled, the same at each run."""
    rng = random.Random(20260602)
    small = [text.encode() for text, *_ in READ if len(text) < 2000]
    for _ in range(count):
        bytes_ = bytearray(rng.choice(small) * rng.choice((1, 1, 2)))
        for _ in range(rng.randrange(1, 9)):
            at = rng.randrange(len(bytes_) + 1)
            what = rng.randrange(4)
            if what == 0:
                bytes_[at:at + 1] = bytes([rng.randrange(256)])
            elif what == 1:
                del bytes_[at:at + rng.randrange(1, 9)]
            elif what == 2:
                bytes_[at:at] = rng.choice((b'\n', b'\r\n', b'=?', b'?=', b'"', b'(', b'<', b':', b'\x00', b'\xc3'))
            else:
                bytes_[at:at] = bytes_[at:at + 40]
        yield bytes(bytes_)


os.makedirs(INBOX)
messages = [text.encode() for text, *_ in READ] + HOSTILE
messages += mutants(200 - len(messages))
for number, bytes_ in enumerate(messages, 1):
    with open(f"{INBOX}/{number}", "wb") as f:
        f.write(bytes_)

began = time.monotonic()
ran = subprocess.run([PROGRAM, "scan", "+inbox"], env={"HOME": HOME}, stdout=subprocess.PIPE, stderr=subprocess.PIPE)
took = time.monotonic() - began
check("two hundred messages are scanned", ran.returncode == 0 and ran.stderr == b"", ran.returncode, ran.stderr[:200])
lines = ran.stdout.split(b"\n")
check("a line for each of them", len(lines) == 201 and lines[-1] == b"", len(lines))
for number, (text, date, star, name, rest) in enumerate(READ, 1):
    want = line(number, date, star, name, rest)
    got = lines[number - 1].decode(errors="replace")
    check(f"message {number} as it was read by hand", got.rstrip() == want.rstrip(), f"\n  {got!r}\n  {want!r}")
for number, got in enumerate(lines[:200], 1):
    try:
        text = got.decode()
        good = text.startswith(f"{number:4}") and all(unicodedata.category(c) != "Cc" for c in text) and len(text.replace("\u0301", "")) <= 80
    except UnicodeDecodeError:
        good = False
    check(f"the line of message {number}", good, got[:200])
for format_, why in (("%(decode(friendly{from}))%(tws{date})%{body}%(unquote{subject})", "addresses, dates and bodies"), ("%<{from}%(addr{from})%|none%> %(host{to})%(mbox{cc})", "parts of addresses")):
    ran = subprocess.run([PROGRAM, "scan", "+inbox", "-format", format_, "-width", "10000"], env={"HOME": HOME}, stdout=subprocess.PIPE, stderr=subprocess.PIPE)
    check(why, ran.returncode in (0, 1) and ran.returncode == (1 if b"bad format" in ran.stderr else 0), ran.returncode, ran.stderr[:200])
ran = subprocess.run([PROGRAM, "pick", "+inbox", "-search", "hello", "-or", "-before", "2000-01-01"], env={"HOME": HOME}, stdout=subprocess.PIPE, stderr=subprocess.PIPE)
check("pick reads them too", ran.returncode == 0 and ran.stdout.startswith(b"1\n3\n4\n5\n6\n"), ran.stdout[:60], ran.stderr[:200])
print(f"scan of 200 messages of the standards and hostile ones, {sum(map(len, messages)):,} bytes: {took:.3f} s")
print(f"{passed} passed, {failed} failed")
