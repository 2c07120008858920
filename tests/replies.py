#!/usr/bin/env python3
"""What the program makes of a server's replies, which it reads from standard input: `unpack` and `look` with the address of a
server, and with none. Each reply is written here, so that no server is needed. Run by hand; needs gcc and the program
(CCK_PROGRAM, by default the one that was proved and built here). The last line is `replies: N passed, M failed`."""
import os
import pathlib
import shutil
import socket
import struct
import subprocess
import sys
import tempfile
import time

from store_files import KINDS, PROGRAM, fletcher, framed

TOP = pathlib.Path(__file__).resolve().parent.parent
WRAPPER = str(TOP / "bin/cckcc")
NAME, KEY, OLD = "0123456789abcdef" * 4, b"a key of signatures", "ab" * 32
outcomes = []


def check(label, is_right, said=""):
    """Notes whether a case is as it has to be."""
    outcomes.append(is_right)
    if not is_right:
        print(f"FAILED: {label} {said}")


def file_of(kind, *parts):
    """The bytes of a file of a store."""
    data = b"".join(map(framed, parts))
    return KINDS[kind] + fletcher(data) + data


def http(value, status=b"200 OK", version=b"1.1", more=b"", length=None):
    """A reply of an HTTP server."""
    length = b"Content-Length: %d\r\n" % len(value) if length is None else length
    return b"HTTP/%s %s\r\n%s%s\r\n%s" % (version, status, length, more, value)


def redis(value):
    """A reply of a Redis server."""
    return b"$-1\r\n" if value is None else b"$%d\r\n%s\r\n" % (len(value), value)


class Room:
    """A directory with a store, the address of a server and a key of signatures."""

    def __init__(self, place):
        self.place, self.store = pathlib.Path(place), pathlib.Path(place) / "store"
        (self.place / "key").write_bytes(KEY)
        self.requests = b""

    def address(self, scheme, secret="", max_size=100000, expanded=b""):
        """Writes the address of a server."""
        (self.place / "expanded").write_bytes(expanded)
        lines = [scheme, "host", "80", "0", "", secret, "1", str(max_size), "answer", "frames", "expanded"]
        (self.place / "address").write_text("\n".join(lines) + "\n")

    def run(self, words, replies, scheme, **variables):
        """The first line of what the program answers to these words, where the server replies so."""
        (self.place / "answer").write_bytes(b"")
        at = ["--address=address"] if scheme else []
        done = subprocess.run([PROGRAM, words[0], self.store, *at, *words[1:]], cwd=self.place, capture_output=True,
                              check=False, input=replies, env={**os.environ, **variables})
        self.requests = done.stdout
        answer = (self.place / "answer").read_bytes() if scheme else done.stdout
        lines = [line for line in answer.decode(errors="replace").split("\n") if not line.startswith("get ")]
        return lines[0]

    def unpack(self, replies, scheme="http", server="only", words=(), **address):
        """What `unpack` answers, without names."""
        self.address(scheme or "", **address)
        shutil.rmtree(self.store, ignore_errors=True)
        said = self.run(["unpack", f"--name={NAME}", f"--server={server}", "--out=o", *words], replies, scheme)
        return said.replace(NAME, "NAME").split(":" if said.startswith("error") else None)[:2]

    def kept(self):
        """The kinds and the names of the files of the store."""
        return sorted((path.parts[-3], path.name) for kind in KINDS for path in (self.store / kind).rglob("*") if path.is_file())


def unpacked(room):
    """Replies to a request for an object."""
    value = file_of("objects", NAME.encode(), b"object", b"", b"x.o: x.c\n")
    other = file_of("objects", NAME.encode(), b"object", b"", b"")
    sealed = subprocess.run([PROGRAM, "seal", "object", NAME, "--sign-key=key"], cwd=room.place, input=value, check=True,
                            capture_output=True).stdout
    right, absent, damaged, forged = ["unpacked", "NAME"], ["absent", "NAME"], ["damaged", "object:NAME"], ["forged", "object:NAME"]
    wrong = ["error"]
    for label, replies, wanted in (
            ("a value", http(value), right),
            ("names of fields in small letters", http(value, length=b"content-length: %d\r\n" % len(value)), right),
            ("a length with another one", http(value, more=b"Content-Length: %d\r\n" % len(value)), wrong),
            ("no length", http(value, length=b""), wrong),
            ("a transfer encoding", http(value, more=b"Transfer-Encoding: identity\r\n"), wrong),
            ("less bytes", http(value)[:-1], wrong),
            ("no value", http(b"", b"404 Not Found"), absent),
            ("no value, with a body", http(value, b"404 Not Found"), absent),
            ("an error of the server", http(value, b"500 Internal Server Error"), wrong),
            ("an empty value", http(b""), absent),
            ("a page", http(b"<html></html>"), damaged),
            ("HTTP/1.0", http(value, version=b"1.0"), right)):
        said = room.unpack(replies)
        check(f"http: {label}", said[:len(wanted)] == wanted, said)
        check(f"http: {label}, nothing is kept", room.kept() == [], room.kept())
    for label, replies, wanted in (
            ("a value", redis(value), right), ("no value", redis(None), absent), ("an empty value", redis(b""), absent),
            ("more bytes", redis(value)[:-2] + b"x\r\n", wrong), ("another value", redis(b"x" * 9), damaged)):
        for secret, login in (("", b""), ("secret", b"+OK\r\n")):
            said = room.unpack(login + replies, "redis", secret=secret)
            check(f"redis: {label}, {secret}", said[:len(wanted)] == wanted, said)
    said = room.unpack(b"-WRONGPASS\r\n" + redis(value), "redis", secret="wrong")
    check("redis: a wrong secret", said[:1] == wrong, said)
    for scheme, reply in (("http", http), ("redis", redis)):
        said = room.unpack(reply(value), scheme, max_size=len(value) - 1)
        check(f"{scheme}: a value that is too large", said[:1] == wrong, said)
        said = room.unpack(reply(value), scheme, "keep")
        check(f"{scheme}: a value that is kept", (said, room.kept()) == (right, [("objects", NAME)]), (said, room.kept()))
        said = room.unpack(reply(b"x"), scheme, "keep")
        check(f"{scheme}: a damaged value is not kept", (said, room.kept()) == (damaged, []), (said, room.kept()))
        said = room.unpack(reply(other), scheme, words=["--dependencies=d"])
        check(f"{scheme}: no dependencies", said == damaged, said)
        for one, wanted in ((sealed, right), (value, forged), (sealed[:-1], forged)):
            said = room.unpack(reply(one), scheme, words=["--verify-key=key"])
            check(f"{scheme}: signatures", said == wanted, said)
    frame = b"\x28\xb5\x2f\xfd" + bytes(9)
    packed = subprocess.run([PROGRAM, "seal", "object", NAME, f"--expanded={len(value)}"], cwd=room.place, input=frame,
                            check=True, capture_output=True).stdout
    reply = b"%d\n" % len(value) + value
    for label, expanded, most, wanted in (
            ("right", reply, 100000, right), ("less bytes than it says", reply[:-1], 100000, absent),
            ("of another length", b"%d\n" % (len(value) - 1) + value[:-1], 100000, absent),
            ("nothing", b"none\n", 100000, absent), ("too large", reply, len(value) - 1, absent)):
        said = room.unpack(http(packed), expanded=expanded, max_size=most)
        check(f"what a frame expands to: {label}", said == wanted, said)
    for label, replies, wanted in (("a value", reply, right), ("less bytes", reply[:-1], absent), ("nothing", b"\n", absent)):
        said = room.unpack(replies, None)
        check(f"by lines: {label}", said == wanted, said)


def looked(room):
    """Replies to the requests of a look-up."""
    (room.place / "x.c").write_text("int x;\n")
    time.sleep(0.1)
    variables = {"CCK_STORE": str(room.store), "CCK_COMPILER_CHECK": "mtime", "XDG_CONFIG_HOME": str(room.place / "none")}
    shutil.rmtree(room.store, ignore_errors=True)
    subprocess.run([WRAPPER, "gcc", "-c", "x.c"], cwd=room.place, env={**os.environ, **variables}, check=True)
    (entry,), (found,) = [[path for path in (room.store / kind).rglob("*") if path.is_file()] for kind in KINDS]
    held = {path: path.read_bytes() for path in (entry, found)}
    key, name = entry.name, found.name

    def look(label, replies, wanted, kept, store=(), server="keep", words=(), request=None, **more):
        """A look-up where the store has these files, and what is in the store then."""
        for path in [path for kind in KINDS for path in (room.store / kind).rglob("*") if path.is_file()]:
            path.unlink()
        for path, data in dict(store).items():
            path.parent.mkdir(parents=True, exist_ok=True)
            path.write_bytes(data)
        room.address("http")
        said = room.run(["look", "--driver=gcc", f"--directory={room.place}", f"--server={server}", *words, "--", "-c", "x.c"],
                        b"".join(replies), "http", **{**variables, **more})
        said = said.replace(name, "NAME").replace(key, "KEY").replace(str(room.store), "STORE").split(" ")
        said = said[3:] if said[0] == "miss" else said[0]
        check(f"look: {label}", said == wanted, said)
        have = [kind for kind, one in room.kept() if one in (key, name)]
        check(f"look: {label}, what is kept", have == kept, have)
        if request:
            check(f"look: {label}, the first request", request in room.requests.split(b"\r\n")[0], room.requests)

    both, none = [http(held[entry]), http(held[found])], http(b"", b"404 Not Found")
    look("a hit", both, "hit", ["entries", "objects"])
    look("a hit of the server alone", both, "hit", [], server="only")
    look("nothing", [none], [], [])
    look("the store is not asked", [none], [], ["entries", "objects"], held, "only")
    look("the store is asked first", [], "hit", ["entries", "objects"], held)
    look("an entry without its object", [both[0], none], ["object", "NAME"], [])
    look("an object that the store lacks", both[1:], "hit", ["entries", "objects"], {entry: held[entry]}, request=b"/object/")
    look("a damaged entry", [http(b"x")], ["damaged", "entry:KEY"], [])
    look("a damaged object", [both[0], http(b"x")], ["object", "NAME", "damaged", "object:NAME"], [])
    look("a damaged entry of the store", [none], ["damaged", f"STORE/entries/{key[:2]}/KEY"], ["entries"], {entry: b"x"})
    signed = ["--verify-key=key"]
    look("a forged entry", both, ["forged", "entry:KEY"], [], words=signed)
    look("a forged object", [both[1], none], ["object", "NAME", "forged", "object:NAME"], ["entries"], {entry: held[entry]},
         words=signed)
    for label, reply in (("a list of words", http(held[entry], more=b"Connection: x, close\r\n")),
                         ("HTTP/1.0", http(held[entry], version=b"1.0"))):
        look(f"a connection that the server closes, {label}", [reply, both[1]], "error:", [])
    large = found.with_name(found.name[:2] + OLD[2:])
    look("the limit", both, "hit", ["entries", "objects"], {large: b"x"}, CCK_MAXSIZE="256")
    check("the limit of what is kept", not large.exists())


def late(room):
    """A server that does not reply in time."""
    room.address("redis")
    here, there = socket.socketpair()
    there.setsockopt(socket.SOL_SOCKET, socket.SO_RCVTIMEO, struct.pack("ll", 0, 200000))
    done = subprocess.run([PROGRAM, "unpack", room.store, f"--name={NAME}", "--server=only", "--address=address", "--out=o"],
                          cwd=room.place, stdin=there, stdout=there, stderr=subprocess.PIPE, check=False)
    here.close()
    there.close()
    said = (room.place / "answer").read_text()
    check("no reply in time", said == f"late\nabsent {NAME}\n", (done, said))


def main():
    with tempfile.TemporaryDirectory() as place:
        room = Room(os.path.realpath(place))
        unpacked(room)
        looked(room)
        late(room)
    failed = outcomes.count(False)
    print(f"replies: {outcomes.count(True)} passed, {failed} failed")
    return 1 if failed else 0


if __name__ == "__main__":
    sys.exit(main())
