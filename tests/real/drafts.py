"""Messages that drafts become, read by Python's email: drafts.py. The last line is 'N passed, M failed'.

crates/message_rows/stdout has them, a row `drafts` each, with what was given for what the draft wants. email must find no defect in any part, and
each file and each forwarded message that was given must be what a part of it carries."""
import ast
import re
from email import message_from_bytes, policy
from pathlib import Path

ROWS = (Path(__file__).resolve().parent.parent.parent / "crates/message_rows/stdout").read_text().split("\n")
WORD = re.compile(r'"(?:[^"\\]|\\.)*"|\S+')
passed = failed = 0


def words(line):
    """The words of a row, of which quoted ones may have any byte."""
    return [ast.literal_eval("b" + it) if it.startswith('"') else it.encode() for it in WORD.findall(line)]


def givens(row):
    """The files and the messages that a row gives."""
    kind, found = None, []
    for it in row[2:]:
        if kind is None:
            kind = it
        elif it == b";":
            kind = None
        else:
            found.append(it)
    return found


def carried(part):
    """What a part carries: its bytes decoded, or the message in it."""
    if part.get_content_type() == "message/rfc822":
        return part.get_payload(0).as_bytes()
    return part.get_payload(decode=True)


def reads(message, given):
    parts = list(message_from_bytes(message, policy=policy.compat32).walk())
    found = [carried(it) for it in parts]
    return not any(it.defects for it in parts) and all(it in found for it in given)


for row, told in zip(ROWS, ROWS[1:]):
    if row.startswith("drafts ") and told.startswith('"'):
        if reads(words(told)[0], givens(words(row))):
            passed += 1
        else:
            failed += 1
            print("failed:", row)
print(f"{passed} passed, {failed} failed")
