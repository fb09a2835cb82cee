"""What the trials over datagrams share: a server that answers, runs of the client, and a relay between both that changes what goes through."""

import collections
import contextlib
import heapq
import os
import select
import socket
import struct
import subprocess
import threading
import time

import trials
from trials import NULL_CALL, NULL_REPLY, PASSWORD, SALT, SERVER, USER, tool

HOST = "127.0.0.1"
# The most octets of a datagram that is read, and those of one that fits into UDP over IPv4.
MOST, WHOLE = 8192, 65507
# A NULL call without authentication and its reply: over datagrams a record has no mark before it.
NULL, NULLED = NULL_CALL[4:], NULL_REPLY[4:]
# What the words of a mechanism are, where the files are in the folder that one is in.
MECHS = {"krb5": ["--ccache", "alice.ccache", "--server", SERVER], "scram": ["--user", USER, "--password", "bob.password"]}


def make_files(folder):
    """Makes the files of both ends, for both mechanisms, in a folder."""
    trials.make_files(folder)
    trials.made(os.path.join(folder, "server.verifiers"), ["verifier", USER, PASSWORD, SALT, "4096"])
    with open(os.path.join(folder, "bob.password"), "w", encoding="ascii") as file:
        file.write(PASSWORD + "\n")


def udp(port=None):
    """A socket of loopback; with a port one that is connected to it."""
    made = socket.socket(type=socket.SOCK_DGRAM)
    made.bind((HOST, 0))
    if port is not None:
        made.connect((HOST, port))
    return made


def asked(link, octets, patience):
    """What comes back for a datagram; None where nothing does in time."""
    with contextlib.suppress(OSError):
        link.send(octets)
        link.settimeout(patience)
        return link.recv(1 << 16)
    return None


def answers(port, server):
    """Waits until a server answers, and says whether it does: it may have ended."""
    while server.poll() is None:
        with udp(port) as probe:
            if asked(probe, NULL, 0.2) == NULLED:
                return True
    return False


def server_words(port, *more):
    """The command of a server with the files of the folder that one is in; the last of two options of one name is not among them."""
    files = ["--keytab", "server.keytab", "--verifiers", "server.verifiers", "--name", SERVER]
    given = dict(zip(more[::2], more[1::2]))
    options = {"--datagrams": "1000000", **given}
    return [tool("gssrpcdu"), "serve", f"{HOST}:{port}", *files, *(word for pair in options.items() for word in pair)]


@contextlib.contextmanager
def serving(*more, errors=None):
    """Runs a server while the block lasts, and gives its port and itself; None in place of the server where it didn't begin."""
    port = trials.free_port(socket.SOCK_DGRAM)
    with trials.running(server_words(port, *more), port, errors=errors, stands=answers) as server:
        yield port, server


def run(port, mech, *words):
    """What a run of the client came to: its status, and the lines that it printed on both streams."""
    command = [tool("gssrpcdu"), "call", f"{HOST}:{port}", *words, *MECHS[mech]]
    done = subprocess.run(command, capture_output=True, text=True)
    return done.returncode, done.stdout.splitlines(), done.stderr.splitlines()


def xid_of(octets):
    """The transaction number of a call or reply; None where there is none."""
    return struct.unpack_from(">I", octets)[0] if len(octets) >= 4 else None


def is_data(call):
    """Whether a datagram is a data call of RPCSEC_GSS: neither a creation nor a destruction (RFC 5531 section 9, RFC 2203 section 5)."""
    return len(call) >= 40 and struct.unpack_from(">I", call, 4)[0] == 0 and struct.unpack_from(">4I", call, 24)[::2] == (6, 1) and struct.unpack_from(">I", call, 36)[0] == 0


class Relay(threading.Thread):
    """Stands between a client and a server while a block lasts, and does with each datagram what `fate` says: it is asked whether the datagram goes
    to the server, and for its octets, and answers after how many seconds each copy of it goes on, none where it is lost."""

    def __init__(self, port, fate):
        super().__init__(daemon=True)
        self.near, self.far, self.fate = udp(), udp(port), fate
        self.client, self.late, self.ends = None, [], False
        self.counts = collections.Counter()

    def port(self):
        return self.near.getsockname()[1]

    def __enter__(self):
        self.start()
        return self

    def __exit__(self, *_):
        self.ends = True
        self.join()
        self.near.close()
        self.far.close()

    def pass_on(self, to_server, octets):
        """Sends a datagram to where it goes; what the system doesn't take is lost."""
        with contextlib.suppress(OSError):
            if to_server:
                self.far.send(octets)
            elif self.client is not None:
                self.near.sendto(octets, self.client)

    def take(self, to_server, octets):
        """Deals with a datagram that came."""
        delays = self.fate(to_server, octets)
        self.counts["calls" if to_server else "replies"] += 1
        self.counts["lost" if not delays else "twice" if len(delays) > 1 else "late" if delays[0] > 0 else "straight"] += 1
        for delay in delays:
            if delay > 0:
                heapq.heappush(self.late, (time.monotonic() + delay, len(self.late), to_server, octets))
            else:
                self.pass_on(to_server, octets)

    def run(self):
        while not self.ends:
            for link in select.select([self.near, self.far], [], [], 0.01)[0]:
                with contextlib.suppress(OSError):
                    octets, sender = link.recvfrom(1 << 16)
                    if link is self.near:
                        self.client = sender
                    self.take(link is self.near, octets)
            while self.late and self.late[0][0] <= time.monotonic():
                _, _, to_server, octets = heapq.heappop(self.late)
                self.pass_on(to_server, octets)
