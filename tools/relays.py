"""What the trials share that put somebody between both ends: a relay that changes the first record of a connection, and the reply to it."""

import contextlib
import socket
import threading

SPNEGO = bytes.fromhex("06062b0601050502")
MECHS = {"krb5": bytes.fromhex("06092a864886f712010202"), "scram": bytes.fromhex("06062b060105050e")}


def element(tag, content):
    """A value of DER."""
    size = len(content)
    if size < 128:
        return bytes([tag, size]) + content
    octets = size.to_bytes((size.bit_length() + 7) // 8, "big")
    return bytes([tag, 0x80 | len(octets)]) + octets + content


def behind_opaque(record, at):
    """Where the opaque ends that begins here, with what fills its last word (RFC 4506 section 4.10)."""
    size = int.from_bytes(record[at : at + 4], "big")
    return at + 4 + size + -size % 4


def opaque(octets):
    """Octets with their length before them."""
    return len(octets).to_bytes(4, "big") + octets + bytes(-len(octets) % 4)


def opaque_at(record, at):
    """The octets of an opaque."""
    return record[at + 4 : at + 4 + int.from_bytes(record[at : at + 4], "big")]


def call_token_at(record):
    """Where the token of a creation call begins: behind six words, the credential and the verifier (RFC 5531 section 9)."""
    at = 24
    for _ in ("credential", "verifier"):
        at = behind_opaque(record, at + 4)
    return at


def reply_token_at(record):
    """Where the token of an accepted creation's reply begins: behind the verifier, the stat, the handle, and three words (RFC 2203 section 5.2.3.1)."""
    handle = behind_opaque(record, 12 + 4) + 4
    return behind_opaque(record, handle) + 12


def octets(link, count):
    """So many octets of a connection."""
    taken = b""
    while len(taken) < count:
        more = link.recv(count - len(taken))
        if not more:
            return taken
        taken += more
    return taken


def record_of(link):
    """The next record of a connection, of one fragment (RFC 5531 section 11)."""
    return octets(link, int.from_bytes(octets(link, 4), "big") & 0x7FFFFFFF)


def send(link, record):
    """Sends a record as one fragment."""
    link.sendall((len(record) | 0x80000000).to_bytes(4, "big") + record)


def forward(source, sink):
    """Hands on what comes, until one of both connections ends."""
    with contextlib.suppress(OSError):
        while more := source.recv(65536):
            sink.sendall(more)
        sink.shutdown(socket.SHUT_WR)


def relay(listener, server, forth, back):
    """Takes one connection, changes its first record and the reply to it, and hands on what follows both ways."""
    with listener, listener.accept()[0] as near, socket.create_connection(server) as far:
        send(far, forth(record_of(near)))
        send(near, back(record_of(far)))
        answers = threading.Thread(target=forward, args=(far, near), daemon=True)
        answers.start()
        forward(near, far)
        answers.join()


@contextlib.contextmanager
def between(address, forth, back):
    """Puts a relay before a server while the block lasts, and gives its address."""
    host, port = address.split(":")
    listener = socket.create_server(("127.0.0.1", 0))
    middle = threading.Thread(target=relay, args=(listener, (host, int(port)), forth, back), daemon=True)
    middle.start()
    yield f"127.0.0.1:{listener.getsockname()[1]}"
    middle.join(5)


def same(record):
    """Leaves a record as it is."""
    return record
