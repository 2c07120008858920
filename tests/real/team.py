"""What tests/team_build.sh needs beside a shell: a proxy in front of a Redis server, and values of the
server that are damaged. tests/team_servers.py uses its functions.

    team.py proxy PORT sleep SECONDS     prints its port, and delays each reply
    team.py proxy PORT cut BYTES         ends the connection after so many bytes of replies
    team.py proxy PORT garble BYTES      changes a bit of each reply after so many bytes
    team.py damage PORT DIRECTORY        compiles in DIRECTORY by damaged values, DAMAGES times"""
import os
import random
import socket
import subprocess
import sys
import threading
import time

DATABASE = 3
chance = random.Random(int(os.environ.get("SEED", "1")))


class Server:
    """A connection to a Redis server."""

    def __init__(self, port, password=None):
        self.connection = socket.create_connection(("127.0.0.1", port))
        self.replies = self.connection.makefile("rb")
        if password:
            self.ask(b"AUTH", password.encode())
        self.ask(b"SELECT", str(DATABASE).encode())

    def reply(self):
        line = self.replies.readline()[:-2]
        if line[:1] == b"$":
            length = int(line[1:])
            return None if length < 0 else self.replies.read(length + 2)[:-2]
        if line[:1] == b"*":
            return [self.reply() for _ in range(int(line[1:]))]
        return line

    def ask(self, *words):
        message = b"*%d\r\n" % len(words)
        for word in words:
            message += b"$%d\r\n%s\r\n" % (len(word), word)
        self.connection.sendall(message)
        return self.reply()


def serve(client, port, way, amount):
    """Passes all on between a client and the server."""
    server = socket.create_connection(("127.0.0.1", port))
    ends = [client, server]

    def close():
        for end in ends:
            try:
                end.shutdown(socket.SHUT_RDWR)
            except OSError:
                pass

    def requests():
        try:
            while data := client.recv(65536):
                server.sendall(data)
        except OSError:
            pass
        close()

    threading.Thread(target=requests, daemon=True).start()
    passed = 0
    try:
        while data := server.recv(65536):
            if way == "sleep":
                time.sleep(amount)
            elif way == "cut":
                data = data[:max(0, int(amount) - passed)]
            elif passed + len(data) > amount:
                at = max(0, int(amount) - passed)
                data = data[:at] + bytes([data[at] ^ 1]) + data[at + 1:]
            passed += len(data)
            client.sendall(data)
            if way == "cut" and passed >= amount:
                break
    except OSError:
        pass
    close()


def proxy(port, way, amount):
    listener = socket.create_server(("127.0.0.1", 0), backlog=100)
    print(listener.getsockname()[1], flush=True)
    while True:
        client, _ = listener.accept()
        threading.Thread(target=serve, args=(client, port, way, amount), daemon=True).start()


def damaged(way, data, others):
    """These bytes, damaged in a way."""
    data = bytearray(data)
    at = chance.randrange(len(data))
    if way == "flip":
        data[at] ^= 1 << chance.randrange(8)
    elif way == "cut":
        del data[at:]
    elif way == "front":
        del data[:at]
    elif way == "grow":
        data += bytes(chance.randrange(256) for _ in range(chance.randrange(1, 40)))
    elif way == "line feed":
        data += b"\n"
    elif way == "zeros":
        data[at:at + 512] = bytes(len(data[at:at + 512]))
    elif way == "another's":
        data = bytearray(chance.choice(others))
    elif way == "version":
        end = data.index(b"\n")
        data[end - 1:end] = b"1" if data[end - 1:end] == b"2" else b"2"
    else:
        data = bytearray(b"hello")
    return bytes(data)


def words_of(name):
    """The words of a compilation that writes a dependency file beside the object."""
    return ["-c", name + ".c", "-MD", "-MT", name]


def contents(path):
    """The contents of a file, if it is there."""
    if not os.path.exists(path):
        return None
    with open(path, "rb") as file:
        return file.read()


WAYS = ["flip", "flip", "flip", "cut", "cut", "front", "grow", "line feed", "zeros", "another's", "version",
        "foreign", "list", "empty", "gone"]


def damage(port, directory):
    """Compilations by a server of which one value is damaged."""
    times = int(os.environ.get("DAMAGES", "1000"))
    os.makedirs(directory)
    os.chdir(directory)
    environment = {**os.environ, "CCK_STORE": f"redis://127.0.0.1:{port}/{DATABASE}", "CCK_LOG": "log",
                   "HOME": directory + "/home"}
    names = [f"d{number}" for number in range(4)]
    plain = {}
    for number, name in enumerate(names):
        with open(name + ".c", "w", encoding="ascii") as file:
            file.write(f"#include <stddef.h>\nint {name} = {number};\n")
        subprocess.run(["gcc", *words_of(name), "-MF", "plain.d", "-o", "plain.o"], check=True)
        plain[name] = contents("plain.o"), contents("plain.d")
    time.sleep(0.1)
    server = Server(port)
    server.ask(b"FLUSHALL")

    def compile_(name):
        """Whether the wrapper succeeded, whether its object and its dependency file are right, and what it did."""
        with open("log", "w", encoding="ascii"):
            pass
        for path in ("got.o", "got.d"):
            if os.path.exists(path):
                os.unlink(path)
        status = subprocess.run(["cckcc", "gcc", *words_of(name), "-o", "got.o"], env=environment, check=False,
                                stderr=subprocess.PIPE)
        right = (contents("got.o"), contents("got.d")) == plain[name]
        with open("log", encoding="utf-8", errors="replace") as file:
            log = file.read()
        return status.returncode == 0 and not status.stderr, right, log

    for name in names:
        compile_(name)
    values = {key: server.ask(b"GET", key) for key in sorted(server.ask(b"KEYS", b"*"))}
    owner = {}
    for name in names:
        for key in values:
            server.ask(b"SET", key, b"x")
            if "damaged" in compile_(name)[2]:
                owner[key] = name
            for each, data in values.items():
                server.ask(b"SET", each, data)
    counts = {"hit": 0, "by its text": 0, "compiled": 0, "noted": 0, "wrong": 0, "failed": 0}
    for _ in range(times):
        key = chance.choice(sorted(values))
        way = chance.choice(WAYS)
        server.ask(b"DEL", key)
        if way == "list":
            server.ask(b"RPUSH", key, values[key])
        elif way == "empty":
            server.ask(b"SET", key, b"")
        elif way != "gone":
            server.ask(b"SET", key, damaged(way, values[key], list(values.values())))
        succeeded, right, log = compile_(owner.get(key, names[0]))
        kind = "compiled"
        if "cckcc: hit" in log:
            kind = "by its text" if "by its text" in log else "hit"
        counts[kind] += 1
        counts["noted"] += "cckcc: server:" in log
        counts["wrong"] += not right
        counts["failed"] += not succeeded
        for each, data in values.items():
            server.ask(b"DEL", each)
            server.ask(b"SET", each, data)
    print(f"{times} damaged values, of {len(values)}:", counts)
    # No call notes a damaged mark.
    marks = sum(b":mark:" in key for key in values)
    return len(owner) + marks == len(values) and not counts["wrong"] and not counts["failed"]


if __name__ == "__main__":
    if sys.argv[1] == "proxy":
        proxy(int(sys.argv[2]), sys.argv[3], float(sys.argv[4]))
    elif not damage(int(sys.argv[2]), sys.argv[3]):
        sys.exit(1)
