"""What the sources of the programs say of their words, lines and statuses, for the tools that compare pages with them."""

import os
import re

TOP = os.path.join(os.path.dirname(os.path.abspath(__file__)), "..")
FILES, LINES = "crates/cli_base/src/files.rt", "crates/cli_base/src/lines.rt"
# The program over datagrams: its words, and the files of its endings, whose lines are mostly those of the programs over connections. Over
# datagrams there is no port, no control address and no connection to end, and a denial is passed over.
DATAGRAM_WORDS = "crates/datagram_options/src/words.rt"
MOST_ARGS = 7904
OVER_CONNECTIONS = ["crates/server_options/src/ending.rt", "crates/client_options/src/ending.rt"]
DATAGRAM_ENDINGS = ("crates/datagram_options/src/ending.rt", "crates/gssrpcdu_cli/src/main.rt", [FILES, *OVER_CONNECTIONS])
UNSAID_OVER_DATAGRAMS = {"cannot listen at {path}", "port fault at desk {desk}", "peer ended", "refused: auth {stat}", "refused: rpc {low} {high}"}
PEER_ENDED = 9
# What is in a server's line where a digest was asked for, as none is over datagrams.
DIGEST = " digest "

# Where the refusals are that a number tells.
REFUSALS = {
    "ApRefusal": "ap_exchange/src/refusal.rt",
    "ScramRefusal": "scram_mech/src/refusal.rt",
    "NegRefusal": "spnego_core/src/refusal.rt",
    "BookRefusal": "accept_book/src/book_answer.rt",
}


class Differences:
    """Counts what differs, and says it."""

    def __init__(self):
        self.count = 0

    def say(self, what):
        self.count += 1
        print(what)

    def compare(self, what, page, sources):
        for one in sorted(sources - page, key=str):
            self.say(f"{what}: the sources have {one}, the page hasn't")
        for one in sorted(page - sources, key=str):
            self.say(f"{what}: the page has {one}, the sources haven't")


def text(*path):
    """The text of a file of the repository."""
    with open(os.path.join(TOP, *path), encoding="utf-8") as file:
        return file.read()


def code(path):
    """The lines of a source without comments, clauses and what is for the prover alone."""
    ghost = re.compile(r"\s*(//|ghost |ensures|requires|#\[)")
    return "".join(line for line in text(path).splitlines(True) if not ghost.match(line))


def number(literal):
    """The number of a literal."""
    return 0xFFFFFFFF if literal == "u32::MAX" else int(literal.replace("_", ""), 0)


def options(path):
    """The names of the options that words may have, with their dashes."""
    return set(re.findall(r'"(--[\w-]+)"', code(path)))


def listed_options(path, function):
    """The same where one function has the list of a command's."""
    body = code(path).split(f"fn {function}(", 1)[1].split("\n}\n", 1)[0]
    return set(re.findall(r'"(--[\w-]+)"', body))


def ranges(path):
    """The least, the greatest and the usual number of each option that takes one; None for the usual where there is no number without it."""
    found = re.findall(r'number_given\(\w+, "(--\w+)", (\w+), (\w+), (\w+)\)', code(path))
    limits = re.findall(r'limit_given\(\w+, "(--\w+)", (\w+), (\w+)\)', code(path))
    numbers = {name: tuple(number(it) for it in numbers) for name, *numbers in found}
    return {**numbers, **{name: (number(least), number(most), None) for name, least, most in limits}}


def datagram_ranges():
    """The same of the program over datagrams: those of the two commands over connections, within narrower limits of its own."""
    own = {name: number(it) for name, it in re.findall(r"const (\w+): u32 = (\w+);", code(DATAGRAM_WORDS))}
    both = {**ranges("crates/server_options/src/options.rt"), **ranges("crates/client_options/src/words.rt")}
    (low, _, usual), connections = both["--window"], both["--connections"]
    changed = {"--window": (low, own["MOST_WINDOW"], usual), "--datagrams": connections, "--tries": (1, own["MOST_TRIES"], own["USUAL_TRIES"])}
    changed["--contexts"] = (1, own["MOST_CONTEXTS"], own["MOST_CONTEXTS"])
    named = listed_options(DATAGRAM_WORDS, "is_served") | listed_options(DATAGRAM_WORDS, "is_called")
    return {name: it for name, it in {**both, **changed}.items() if name in named}


def bounds(path):
    """The numbers from 10 on that the code of a file has."""
    found = re.findall(r'(?<![\w"])(?:0x[0-9a-f_]+|[0-9][0-9_]*|u32::MAX)(?![\w"])', code(path))
    return {number(literal) for literal in found if number(literal) >= 10}


def closed_words(path):
    """The words that a file compares what it is given with, without the options."""
    return set(re.findall(r'(?:== |is_command\(words, \d+, |Some\()"([^"-][^"]*)"', code(path)))


def statuses(*paths):
    """The statuses that these files end with, and 6, which a sink has that failed."""
    found = {6}
    for source in map(text, paths):
        found |= {int(it) for it in re.findall(r"\bsay(?:_made)?\(\s*(?:err|sink),\s*(\d+),", source)}
        named = re.findall(r"const \w+: u8 = (\d+);|(?:RunEnd::Finished|Ok\(\(\)\)) => (\d+),", source)
        found |= {int(it) for pair in named for it in pair if it}
    return found


def stats(kind):
    """The numbers of the accept or the auth stats, each with its name."""
    found = re.findall(rf"/// {kind} stat: [^\n]*\npub const (\w+): u32 = (\d+);", text("crates/rpc_msgs/src/numbers.rt"))
    return {(int(literal), name) for name, literal in found}


def minors():
    """The minor numbers that the server tells, each with its major status and the name of its refusal."""
    statuses_of = text("crates/gss_server/src/statuses.rt")
    found = set()
    for enum, path in REFUSALS.items():
        majors = dict(re.findall(rf"{enum}::(\w+)(?: \{{[^}}]*\}})? => major\((\w+)\)", statuses_of))
        told = text("crates", path).split(f"impl {enum} {{", 1)[1].split("impl ", 1)[0]
        for name, literal in re.findall(rf"{enum}::(\w+)(?: \{{[^}}]*\}})? => (\d+),", told):
            found.add((int(literal), majors.get(name, "FAILURE"), name))
    return found


def lines(*paths):
    """The lines that these files print, with what stands in braces for what is put in."""
    return {line for path in paths for line in re.findall(r'"((?:[^"\\]|\\.)*)\\n"', code(path))}


def usage_lines(path):
    """The usage lines that a file has."""
    return {line for line in lines(path) if line.startswith("usage: ")}


def given_options(path):
    """The options of a program with these words: those over datagrams stand in two lists, beside one that is renamed."""
    commands = ("is_served", "is_called") if path == DATAGRAM_WORDS else ()
    return set().union(*(listed_options(path, it) for it in commands)) if commands else options(path)


def given_ranges(path):
    """The ranges of its options that take a number."""
    return datagram_ranges() if path == DATAGRAM_WORDS else ranges(path)


def given_bounds(path):
    """The bounds that words name: that of an argument over datagrams has four octets more in XDR, for its length."""
    return {it - 4 if path == DATAGRAM_WORDS and it == MOST_ARGS else it for it in bounds(path)}


def ends_of(program, ending, *more):
    """The statuses of a program, and the lines that it says."""
    said, told = statuses(ending, program, *more), lines(ending, LINES, *more)
    if (ending, program, list(more)) == DATAGRAM_ENDINGS:
        unsaid = UNSAID_OVER_DATAGRAMS.union(*map(usage_lines, OVER_CONNECTIONS))
        return said - {PEER_ENDED}, {line for line in told - unsaid if DIGEST not in line}
    return said, told
