"""Shares the seconds out between the parts: fire.py SECONDS PROGRAM [PART[:COMMAND]..]. The last line is 'N passed, M failed'."""
import os
import random
import shutil
import signal
import sys
import tempfile
import time
import traceback

import broken
import drops
import dying
import faults
import hostile
import owners
import power
import rivals
import steps
from books import Count

# Each part with its weight: its share of the seconds that are left when it begins.
PARTS = [("broken", broken, 0.1), ("steps", steps, 1), ("dying", dying, 14), ("power", power, 4), ("drops", drops, 8), ("owners", owners, 1),
         ("rivals", rivals, 5), ("faults", faults, 4), ("hostile", hostile, 5)]


def program_in(room, given):
    """A copy of the program that every user may run."""
    os.chmod(room, 0o755)
    shutil.copy(given, f"{room}/mh")
    os.chmod(f"{room}/mh", 0o755)
    return f"{room}/mh"


def shares(parts, seconds):
    """Runs the parts, each for its share of what is left of the time."""
    begin = time.monotonic()
    for k, (name, part, weight) in enumerate(parts):
        left = max(0, seconds - (time.monotonic() - begin))
        yield name, part, left * weight / sum(it[2] for it in parts[k:])


def ran_to_end(part, *given):
    """Runs a part. What stops it, as a command that hangs where nobody expects it, is a complaint, and the next part runs."""
    try:
        part.run(*given)
        return []
    except Exception as fault:
        where = traceback.extract_tb(fault.__traceback__)[-1]
        return [f"{type(fault).__name__} at {os.path.basename(where.filename)} {where.lineno}: {fault}"]


def main():
    """Runs the parts named, or all; of a part only the commands whose names begin with COMMAND, where it can be cut so."""
    seconds, built = float(sys.argv[1]), os.path.abspath(sys.argv[2])
    only = dict(it.partition(":")[::2] for it in sys.argv[3:])
    seed = int(os.environ.get("FIRE_SEED") or random.randrange(10 ** 9))
    parts = [it for it in PARTS if not only or it[0] in only]
    total = Count()
    signal.signal(signal.SIGTERM, lambda *_: sys.exit(1))
    print(f"seed {seed}", flush=True)
    with tempfile.TemporaryDirectory(prefix="mh-fire-") as room:
        program = program_in(room, built)
        for name, part, share in shares(parts, seconds):
            begin, passed, failed = time.monotonic(), total.passed, total.failed
            os.makedirs(f"{room}/{name}")
            print(f"{name}:", flush=True)
            given = (program, share, f"{room}/{name}", total, random.Random(seed), only.get(name, ""))
            total.check(f"{name} comes to its end", ran_to_end(part, *given))
            print(f"  {total.passed - passed} passed, {total.failed - failed} failed, in {time.monotonic() - begin:.0f} s", flush=True)
    print(f"{total.passed} passed, {total.failed} failed")
    return total.failed == 0


if __name__ == "__main__":
    sys.exit(0 if main() else 1)
