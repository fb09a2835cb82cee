#!/usr/bin/env python3
"""What a drill prints, by docs/FORMATS.md ("Drills") alone: no part of the programs is asked.

usage: tools/drill_model.py SEED CALLS     the lines of that drill
       tools/drill_model.py                compares each drill of crates/world_tables/data/drills.txt that ends well

The service's results are those of docs/PROTOCOL.md. The status is 0 only where all drills of the table are so."""

import hashlib
import os
import re
import sys

TABLE = os.path.join(os.path.dirname(os.path.abspath(__file__)), "..", "crates", "world_tables", "data", "drills.txt")
NULL, ECHO, WHOAMI, POST, COUNT = range(5)
SESSION = 1000
# By mechanism, Kerberos first: the caller's name, and the records of a creation and of the end.
CALLERS, FRAMING = (b"user@DRILL", b"drill"), (2, 4)
# The entries that the creation and the end of a context add to the log.
ENTRIES = 4


def octets_of(seed):
    """The octets that a generator draws."""
    value = seed
    while True:
        value = (value * 6364136223846793005 + 1442695040888963407) % 2**64
        yield value >> 56


def opaque(octets):
    """Octets of variable length in XDR (RFC 4506 section 4.10)."""
    return len(octets).to_bytes(4, "big") + octets + bytes(-len(octets) % 4)


def drill(seed, calls):
    """The lines of a drill, the server's last."""
    draw, posts, digest, records = octets_of(seed), 0, hashlib.sha1(), calls
    sessions = -(-calls // SESSION)
    for call in range(calls):
        procedure = next(draw) % 5
        octets = bytes(next(draw) for _ in range(next(draw) % 64)) if procedure in (ECHO, POST) else b""
        posts += procedure == POST
        if procedure == ECHO:
            digest.update(opaque(octets))
        elif procedure == WHOAMI:
            digest.update(opaque(CALLERS[call // SESSION % 2]))
        elif procedure in (POST, COUNT):
            digest.update(posts.to_bytes(4, "big"))
    records += sum(FRAMING[session % 2] for session in range(sessions))
    entries = calls + ENTRIES * sessions
    told = [f"sessions {sessions}", f"calls {calls}", "refused 0", f"posts {posts}", f"entries {entries}", f"digest {digest.hexdigest()}"]
    return [*told, f"served {sessions} connections {records} records {entries} entries"]


def differing():
    """How many drills of the table are otherwise, each of which is said, and how many there are."""
    with open(TABLE, encoding="ascii") as file:
        rows = re.findall(r"^drill,(\d+),(\d+) - 0 (.*)$", file.read(), re.M)
    wrong = [(seed, calls) for seed, calls, told in rows if told != " ".join(drill(int(seed), int(calls)))]
    for seed, calls in wrong:
        print(f"drill {seed} {calls}: due is {' '.join(drill(int(seed), int(calls)))}")
    return len(wrong), len(rows)


if __name__ == "__main__":
    if len(sys.argv) == 3:
        print("\n".join(drill(int(sys.argv[1]), int(sys.argv[2]))))
        sys.exit(0)
    wrong, count = differing()
    print(f"{count} drills, {wrong} otherwise than the model has them")
    sys.exit(1 if wrong or not count else 0)
