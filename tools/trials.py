"""What the trials of this folder share: the programs, the files that they are run with, and a server that listens."""

import contextlib
import os
import random
import shutil
import socket
import subprocess
import tempfile
import time

HERE = os.path.dirname(os.path.abspath(__file__))
PROGRAMS = ("gssrpcd_cli", "gssrpc_cli", "gss_files", "gsssasl_cli", "gssrpcdu_cli")
KEY, OTHER_KEY = "000102030405060708090a0b0c0d0e0f", "ff0102030405060708090a0b0c0d0e0f"
SERVER, CLIENT = "rpc/localhost@REALM.TEST", "alice@REALM.TEST"
CONFIG = "[libdefaults]\n default_realm = REALM.TEST\n dns_lookup_kdc = false\n dns_canonicalize_hostname = false\n"
LIBRARIES = ["-I/usr/include/tirpc", "-ltirpc", "-lgssapi_krb5"]
# The RPC library of MIT Kerberos in place of libtirpc.
MIT_LIBRARIES = ["-DMIT_RPC", "-lgssrpc", "-lgssapi_krb5"]
# The status where the system lacks what a trial needs.
LACKING = 77
# Ports below those that the system gives to connections (ip_local_port_range of Linux).
PORTS = range(20000, 32000)


def tool(name):
    """The path of a program or script of this folder."""
    return os.path.join(HERE, name)


def libraries_of_crates():
    """The names of the libraries that each crate uses, by its name, as crates.txt has them; behind a name may stand what sort of crate it is."""
    with open(os.path.join(HERE, "..", "crates.txt"), encoding="utf-8") as file:
        lines = [line.partition(":") for line in file if line.strip() and not line.startswith("#")]
    return {name.split()[0]: libraries.split() for name, _, libraries in lines}


def below(names, libraries):
    """These crates and all below them."""
    found, left = set(), list(names)
    while left:
        name = left.pop()
        if name in libraries and name not in found:
            found.add(name)
            left += libraries[name]
    return found


def stand_built():
    """Whether the programs are there."""
    return all(os.access(os.path.join(HERE, "..", "crates", name, "out", name), os.X_OK) for name in PROGRAMS)


def are_built():
    """Whether the programs are there, proved and built first where one isn't."""
    if stand_built():
        return True
    print("$ tools/build", flush=True)
    return subprocess.run([tool("build")]).returncode == 0


def free_port(kind=socket.SOCK_STREAM):
    """A port of loopback that nobody listens at. It is none of those that connections are given, so none has it when a server begins."""
    for port in random.SystemRandom().sample(PORTS, len(PORTS)):
        with socket.socket(type=kind) as probe, contextlib.suppress(OSError):
            probe.bind(("127.0.0.1", port))
            return port
    raise RuntimeError("no port is free")


def listens(port, server):
    """Waits until a server listens, and answers whether it does: it may have ended."""
    while server.poll() is None:
        with socket.socket() as probe:
            if probe.connect_ex(("127.0.0.1", port)) == 0:
                return True
        time.sleep(0.1)
    return False


@contextlib.contextmanager
def running(command, port, environment=None, errors=None, stands=listens):
    """Runs a server while the block lasts, and gives it once it listens, or None where it doesn't."""
    server = subprocess.Popen(command, env=environment, stderr=errors)
    try:
        yield server if stands(port, server) else None
    finally:
        server.terminate()
        server.wait()


def made(path, words):
    """Makes a file by gss_files."""
    with open(path, "wb") as file:
        subprocess.run([tool("gss_files"), *words], stdout=file, check=True)


def make_files(folder):
    """Makes a keytab, a ticket under its key, and the settings of MIT's library, in a folder."""
    made(os.path.join(folder, "server.keytab"), ["keytab", SERVER, "1", "17", KEY])
    made(os.path.join(folder, "alice.ccache"), ["ccache", CLIENT, SERVER, "1", "17", KEY, "10"])
    with open(os.path.join(folder, "krb5.conf"), "w", encoding="ascii") as config:
        config.write(CONFIG)


def make_other_ticket(folder):
    """Makes a ticket under a key that the server hasn't."""
    path = os.path.join(folder, "other.ccache")
    made(path, ["ccache", CLIENT, SERVER, "1", "17", OTHER_KEY, "10"])
    return path


def compiled(folder, name, flags=(), libraries=LIBRARIES):
    """Compiles the program in C of this name over an RPC library and MIT Kerberos; None where the system can't."""
    program, compiler = os.path.join(folder, name), shutil.which("cc")
    if compiler is None:
        print("there is no C compiler")
        return None
    words = [compiler, "-O2", *flags, tool(name + ".c"), "-o", program, *libraries]
    done = subprocess.run(words, capture_output=True, text=True)
    if done.returncode != 0:
        print(f"{name} can't be built, for which libtirpc and MIT Kerberos are needed (Debian: gcc, libtirpc-dev, libkrb5-dev)")
        print(done.stderr.split("\n")[0])
        return None
    return program


def tell(right):
    """Says whether a trial went well, and gives its status."""
    print("all was as it is to be" if right else "something was not as it is to be")
    return 0 if right else 1


def over_outside(name, flags, is_realm, is_right, libraries=LIBRARIES):
    """Tries something with a program in C that isn't of this project, over files of gss_files or of a realm: the trial's status."""
    with tempfile.TemporaryDirectory() as folder:
        program = compiled(folder, name, flags, libraries)
        if program is None:
            return LACKING
        if not are_built():
            return 1
        if not is_realm:
            make_files(folder)
            return tell(is_right(program, folder))
        status = subprocess.run([tool("realm"), "start", folder, str(free_port())]).returncode
        if status != 0:
            return status
        try:
            return tell(is_right(program, folder))
        finally:
            subprocess.run([tool("realm"), "stop", folder])


def processor_seconds(process):
    """What a process has had of processor time; None where the system doesn't tell."""
    try:
        with open(f"/proc/{process.pid}/stat", encoding="ascii") as stat:
            fields = stat.read().rsplit(")", 1)[1].split()
    except OSError:
        return None
    return (int(fields[11]) + int(fields[12])) / os.sysconf("SC_CLK_TCK")


def outside_files(folder, cache, **more):
    """The environment of the client in C with a cache."""
    return dict(os.environ, KRB5_CONFIG=os.path.join(folder, "krb5.conf"), KRB5CCNAME="FILE:" + cache, **more)


def outside_status(program, folder, port, cache, posts, words):
    """Runs the client in C with a cache, after so many posts of others: its status."""
    return subprocess.run([program, str(port), SERVER, *words], env=outside_files(folder, cache, POSTS=str(posts))).returncode


def are_answered_at_once(program, folder, port, clients):
    """Whether so many clients in C were answered right that call at the same time, by integrity and by privacy in turn."""
    files = outside_files(folder, os.path.join(folder, "alice.ccache"), BESIDE="1")
    words = [[program, str(port), SERVER, ("integrity", "privacy")[it % 2], "20", "4"] for it in range(clients)]
    print(f"{clients} clients at once:", flush=True)
    return all([run.wait() == 0 for run in [subprocess.Popen(it, env=files) for it in words]])


def are_answered(program, folder, port, server, runs):
    """Whether the runs of the client in C were right. The words of each are service, calls of a context, contexts, NULL calls of a context."""
    posts, right, cache = 0, True, os.path.join(folder, "alice.ccache")
    for service, calls, contexts, nulls in runs:
        before = processor_seconds(server)
        words = [service, str(calls), str(contexts), str(nulls)]
        right = outside_status(program, folder, port, cache, posts, words) == 0 and right
        after = processor_seconds(server)
        if before is not None and after is not None:
            print(f"  of which the server took {after - before:.2f} seconds of processor time", flush=True)
        posts += calls * contexts
    right = are_answered_at_once(program, folder, port, 8) and right
    print("with a ticket under another key:", flush=True)
    return outside_status(program, folder, port, make_other_ticket(folder), posts, ["integrity", "1"]) == 1 and right


def over_outside_client(runs, is_realm, options=(), libraries=LIBRARIES):
    """Tries the server, without users and with these options, with the client in C over these libraries: the trial's status."""

    def is_right(program, folder):
        port, verifiers = free_port(), os.path.join(folder, "server.verifiers")
        with open(verifiers, "wb"):
            pass
        files = ["--keytab", os.path.join(folder, "server.keytab"), "--verifiers", verifiers, "--name", SERVER]
        command = [tool("gssrpcd"), f"127.0.0.1:{port}", *files, "--connections", "1000000", "--log", "1000000", *options]
        with running(command, port) as server:
            return server is not None and are_answered(program, folder, port, server, runs)

    return over_outside("outside_client", [], is_realm, is_right, libraries)


# A NULL call without authentication and its reply, each a record of one fragment (RFC 5531 sections 9 and 11).
NULL_CALL = bytes.fromhex("80000028" "00000001" "00000000" "00000002" "20004753" "00000001" "00000000" "0000000000000000" "0000000000000000")
NULL_REPLY = bytes.fromhex("80000018" "00000001" "00000001" "00000000" "0000000000000000" "00000000")
USER, PASSWORD, SALT = "bob", "pencil", "101112131415161718191a1b1c1d1e1f"


def show_made(name, words):
    """Makes a file by gss_files in the folder that one is in, and shows the line that makes it."""
    print("$ tools/gss_files", *words, ">" + name, flush=True)
    made(name, words)


def show_written(name, text):
    """Makes a file of one line there, and shows the line that makes it."""
    print(f"$ echo {text} >{name}", flush=True)
    with open(name, "w", encoding="ascii") as file:
        file.write(text + "\n")


def streamed():
    """Whether the server answers a NULL call over its standard streams, and says what it served."""
    words = ["stdio", "--keytab", "server.keytab", "--verifiers", "server.verifiers", "--name", SERVER]
    print("$ tools/gssrpcd", *words, "<null.call >null.reply", flush=True)
    done = subprocess.run([tool("gssrpcd"), *words], input=NULL_CALL, capture_output=True)
    said = done.stderr.decode()
    print(f"{said}status {done.returncode}", flush=True)
    right = (done.returncode, done.stdout, said) == (0, NULL_REPLY, "served 1 connections 1 records 0 entries\n")
    if not right:
        print(f"due were status 0 and the reply {NULL_REPLY.hex()}")
    return right


def called(words, due):
    """Whether a call of the client came to what is due: its status, and the lines that it printed on both streams."""
    print("$ tools/gssrpc", *words, flush=True)
    done = subprocess.run([tool("gssrpc"), *words], capture_output=True, text=True)
    print(f"{done.stdout}{done.stderr}status {done.returncode}", flush=True)
    right = (done.returncode, done.stdout.splitlines(), done.stderr.splitlines()) == due
    if not right:
        print(f"due were status {due[0]} and the lines {due[1] + due[2]}")
    return right


def over_both(are_right, options=()):
    """Makes the files of both ends, starts the server with these options too, and judges the calls at its address: the trial's status."""
    if not are_built():
        return 1
    with tempfile.TemporaryDirectory() as folder:
        os.chdir(folder)
        show_made("server.keytab", ["keytab", SERVER, "1", "17", KEY])
        show_made("server.verifiers", ["verifier", USER, PASSWORD, SALT, "4096"])
        show_made("alice.ccache", ["ccache", CLIENT, SERVER, "1", "17", KEY, "10"])
        show_written("bob.password", PASSWORD)
        show_written("wrong.password", "crayon")
        port = free_port()
        words = [f"127.0.0.1:{port}", "--keytab", "server.keytab", "--verifiers", "server.verifiers", "--name", SERVER, *options]
        print("$ tools/gssrpcd", *words, "&", flush=True)
        with running([tool("gssrpcd"), *words], port) as server:
            right = server is not None and are_right(f"127.0.0.1:{port}")
        return tell(right)
