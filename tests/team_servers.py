#!/usr/bin/env python3
"""Compiles small projects by each kind of server of a team's store, and compares each object, dependency file and
message with gcc's: three checkouts, hits with and without a client, addresses that are not valid, faults of each server,
signatures, compression, damaged and forged values. No fault may end a call, and each is counted. No secret may be an
argument of a process, in the log, or in the environment of a compiler, and no key in the environment of any process. Needs
gcc, openssl, bash, perl, redis-server, redis-cli, nginx, lighttpd with mod_webdav, curl and zstd. The program is CCK_PROGRAM, by
default the one that was proved and built here. DAMAGES is the number of damaged values, and that of forged ones, 100 by
default, and DIGESTS a directory that keeps the digests of the compiler's programs for the next run. With names of checks
or servers only these are tried.
The last line is `team_servers: N passed, M failed`."""
import collections
import glob
import os
import pathlib
import re
import shutil
import subprocess
import sys
import tempfile
import threading
import time

TOP = pathlib.Path(__file__).resolve().parent.parent
sys.path.insert(0, str(TOP / "tests/real"))
import sealed  # noqa: E402
import servers  # noqa: E402
import team  # noqa: E402

FILES = {
    "src/a.c": '#include "common.h"\nint a(void) { return COMMON; }\n',
    "src/b.c": '#include "common.h"\nint b(int c) { int unused; return c << COMMON; }\n',
    "src/common.h": "#define COMMON 4\n",
    # A name that is quoted for a shell, and an object that is larger than a pipe holds by default.
    "src/it's large.c": "char large[300000] = {1};\n",
}
SOURCES = ["a", "b", "it's large"]
# The programs in whose place a script notes the arguments and the environment, and calls the program.
WATCHED = ["as", "bash", "curl", "perl", "redis-cli", "zstd"]
WATCH = """#!/bin/sh
limit=$(ulimit -S -f)
ulimit -S -f unlimited
name=${0##*/} here=${0%/*}
case $name in as|bash|perl|zstd) env >>"$here/environment" ;; esac
printf '%s\\n' "$name" "$@" >>"$here/arguments"
program=$(PATH=${PATH#*:}; command -v "$name")
ulimit -S -f "$limit"
exec "$program" "$@"
"""
Done = collections.namedtuple("Done", "status outputs log counts")


class Test:
    """The room of the test, and what passed."""

    def __init__(self, room):
        self.room, self.passed, self.failed, self.number = pathlib.Path(room), 0, 0, 0
        program = os.environ.get("CCK_PROGRAM", str(TOP / "crates/cck_cache/out/cck_cache"))
        self.variables = {name: value for name, value in os.environ.items()
                          if not name.startswith(("CCK_", "REDIS", "XDG_"))}
        self.seed = pathlib.Path(os.environ.get("DIGESTS", self.room / "seed"))
        self.watch()
        self.variables.update(CCK_PROGRAM=program, PATH=f"{self.seed}:{TOP}/bin:{os.environ['PATH']}", CCK_TIMEOUT="10")
        self.plain, self.logs, self.arguments = {}, "", ""
        self.keys = sealed.Keys(self.room)
        for name in ("one", "two", "three"):
            self.add_checkout(name)
        time.sleep(0.1)
        # The programs of the compiler are hashed once. The scheme is of no server.
        self.run("one", "a", self.seed, CCK_STORE="none://", CCK_DIR=str(self.seed / ".cache/cck"))

    def check(self, label, found, wanted):
        """Whether what was found is what is wanted."""
        if found == wanted:
            self.passed += 1
        else:
            self.failed += 1
            print(f"FAILED: {label}\nwanted: {wanted}\nfound:  {found}", flush=True)

    def watch(self):
        """Makes the scripts that note the arguments and the environment of programs."""
        self.seed.mkdir(exist_ok=True)
        for name in ("environment", "arguments"):
            (self.seed / name).write_text("")
        for name in WATCHED:
            script = self.seed / name
            if not script.exists():
                script.write_text(WATCH)
                script.chmod(0o755)

    def add_checkout(self, name):
        """A checkout, and what gcc makes of its files."""
        top = self.room / name
        (top / "src").mkdir(parents=True)
        for path, text in FILES.items():
            (top / path).write_text(text)
        for source in SOURCES:
            got = subprocess.run(["gcc", *self.words(name, source)], cwd=top / "src", env=self.variables, check=True,
                                 capture_output=True)
            self.plain[name, source] = self.outputs(name, source, got)

    def words(self, checkout, source):
        """The words of a compilation."""
        return ["-O2", "-g", "-Wall", f"-ffile-prefix-map={self.room / checkout}=.", "-MD", "-MF", source + ".d", "-c",
                source + ".c", "-o", source + ".o"]

    def outputs(self, checkout, source, got):
        """What a compilation wrote: two files, which are removed, and messages."""
        found = [got.stdout, got.stderr]
        for suffix in (".o", ".d"):
            path = self.room / checkout / "src" / (source + suffix)
            found.append(path.read_bytes() if path.exists() else None)
            path.unlink(missing_ok=True)
        return found

    def machine(self):
        """The home of a new machine, which knows the digests of the compiler's programs."""
        self.number += 1
        store = self.room / f"home{self.number}/.cache/cck"
        store.mkdir(parents=True)
        for name in ("VERSION", "empty.h"):
            shutil.copy2(self.seed / ".cache/cck" / name, store)
        for name in ("compilers", "digests"):
            shutil.copytree(self.seed / ".cache/cck" / name, store / name)
        # What curl would read without the option -q.
        (self.room / f"home{self.number}/.curlrc").write_text("insecure\nlocation\n")
        return store.parent.parent

    def run(self, checkout, source, home, **variables):
        """Compiles by the wrapper."""
        top = self.room / checkout
        log = self.room / "log"
        log.write_text("")
        store = pathlib.Path(variables.get("CCK_DIR", home / ".cache/cck"))
        before = counts_of(store)
        got = subprocess.run(["cckcc", "gcc", *self.words(checkout, source)], cwd=top / "src", check=False,
                             capture_output=True, env={**self.variables, "HOME": str(home), "CCK_BASEDIR": str(top),
                                                       "CCK_LOG": str(log), **variables})
        self.logs += log.read_text()
        return Done(got.returncode, self.outputs(checkout, source, got), log.read_text(), counts_of(store) - before)

    def compile(self, label, checkout, source, home, **variables):
        """Compiles by the wrapper, and compares the status and all outputs with those of gcc."""
        done = self.run(checkout, source, home, **variables)
        self.check(f"{label}: status and outputs", (done.status, done.outputs), (0, self.plain[checkout, source]))
        return done


def counts_of(store):
    """The counts of a store."""
    return collections.Counter({path.name: path.stat().st_size for path in store.glob("counts/*")})


def way_of(done):
    """What the wrapper did, by its log."""
    found = re.search(r"^cckcc: (hit|recorded|passed on)\b(.*by its text)?", done.log, re.M)
    return found and (found[1] + (", by its text" if found[2] else ""))


# An address, and the event that is counted.
ADDRESSES = [
    ("memcached://127.0.0.1:1", "server-scheme"),
    ("REDIS://127.0.0.1:1", "server-scheme"),
    ("host:6379/0", "server-scheme"),
    (":", "server-scheme"),
    ("redis:127.0.0.1:1", "server-address"),
    ("redis://", "server-address"),
    ("redis://-h", "server-address"),
    ("redis://127.0.0.1:1x", "server-address"),
    ("redis://127.0.0.1:1/zero", "server-address"),
    ("redis+unix://socket", "server-address"),
    ("redis+unix:///socket?db=x", "server-address"),
    ("rediss://127.0.0.1", "server-cacert"),
    ("redis://127.0.0.1 none", "server-secret"),
    ("http:///prefix", "server-address"),
    ("http://127.0.0.1:1/a b", "server-address"),
    ("http://127.0.0.1:1/a?b", "server-address"),
    ('http://127.0.0.1:1/"', "server-address"),
    ("https://user:pass/word@127.0.0.1:1", "server-address"),
    ("http://127.0.0.1:1 one/src/a.c", "server-secret"),
    ("http://127.0.0.1:1 none", "server-secret"),
]


def addresses(test):
    """Addresses that are not valid: an event is counted, no directory is made, and the call goes on."""
    for address, event in ADDRESSES:
        home = test.machine()
        # What comes after a space is the path of a file with a secret.
        address, _, secret = address.partition(" ") if event == "server-secret" else (address, "", "")
        secret = {"CCK_SECRET_FILE": str(test.room / secret)} if secret else {}
        done = test.compile(address, "one", "a", home, CCK_STORE=address, **secret)
        test.check(f"{address}: without a directory", (way_of(done), done.counts[event]), ("passed on", 1))
        scheme = address.split(":")[0]
        if event == "server-scheme" and scheme:
            test.check(f"{address}: the log has the scheme", f"unknown scheme {scheme}\n" in done.log, True)
        test.check(f"{address}: no directory is made", (test.room / "one/src" / (scheme + ":")).exists(), False)
    variables = {"CCK_STORE": ADDRESSES[0][0], "CCK_DIR": str(test.machine() / ".cache/cck")}
    for wanted in ("recorded", "hit"):
        done = test.compile("an unknown scheme and a directory", "one", "b", test.seed, **variables)
        test.check("an unknown scheme and a directory", (way_of(done), done.counts["server-scheme"]), (wanted, 1))


# The checkout, whether the machine is a new one, and what the wrapper does with each file.
CHECKOUTS = [
    ("one", True, "recorded"),
    ("one", False, "hit"),
    ("two", True, "hit, by its text"),
    ("three", True, "hit, by its text"),
    ("two", True, "hit"),
]


def checkouts(test, server):
    """Three checkouts share the objects of a server."""
    home = None
    for checkout, is_new, wanted in CHECKOUTS:
        home = test.machine() if is_new else home
        for source in "ab":
            label = f"{server.scheme}: {checkout}/{source}.c"
            done = test.compile(label, checkout, source, home, **server.variables())
            test.check(label, (way_of(done), done.counts["server-failed"]), (wanted, 0))


# Variables with which a client asks for a hit too, and not the program, by a Unix socket and by TCP.
BY_CLIENT = {
    "redis+unix": [{"PERL5OPT": "-MNone"}, {"PERL_UNICODE": "SD"}, {"CCK_TIMEOUT": "10.5"}],
    "tcp": [{"CCK_TIMEOUT": "10.5"}, {"CCK_TIMEOUT": "02"}],
}
# Variables that bash does not take from its environment.
FOR_BASH = {"SHELLOPTS": "xtrace:verbose", "BASH_ENV": "/none", "POSIXLY_CORRECT": "1", "BASH_FUNC_exec%%": "() { false; }"}


def clients(test, server):
    """A hit starts no client but by TLS, and where the environment is not plain. Each way writes the same."""
    def hits(label, source, home, by, **changes):
        """A call that hits, in the log and in the counts, and which programs asked."""
        label = f"{server.scheme}: {label}, {source}.c"
        (test.seed / "arguments").write_text("")
        done = test.compile(label, "one", source, home, **{**server.variables(), **changes})
        started = (test.seed / "arguments").read_text().split("\n")
        test.arguments += "\n".join(started)
        asked = {"bash", "perl", "curl", "redis-cli"} & set(started)
        test.check(label, (way_of(done), done.counts["server-hit"], asked), ("hit", 1, {by}))

    client = "curl" if server.scheme in ("http", "https") else "redis-cli"
    by = {"rediss": client, "https": client, "redis+unix": "perl"}.get(server.scheme, "bash")
    for source in SOURCES:
        test.compile(f"{server.scheme}: {source}.c is recorded", "one", source, test.machine(), **server.variables())
        home = test.machine()
        hits("a hit", source, home, by)
        hits("a hit with variables for bash", source, home, by, **FOR_BASH)
        directory = home / "kept"
        shutil.copytree(home / ".cache/cck", directory)
        variables = {"CCK_DIR": str(directory)}
        hits("a hit that is kept", source, home, by, **variables)
        done = test.compile(f"{server.scheme}: {source}.c was kept", "one", source, home,
                            **{**server.variables(), **variables})
        test.check(f"{server.scheme}: {source}.c was kept", (way_of(done), done.counts["hit"]), ("hit", 1))
        for changes in BY_CLIENT.get(server.scheme, BY_CLIENT["tcp"]):
            hits(f"a hit with {changes}", source, home, client, **changes)
    # A server that was slow an hour ago is asked again, and then there is no mark of it.
    server.pause()
    test.compile(f"{server.scheme}: a slow server", "one", "a", home, **{**server.variables(), "CCK_TIMEOUT": "1"})
    server.resume()
    marks = list(home.glob(".cache/cck/down-*"))
    test.check(f"{server.scheme}: marks of a slow server", len(marks), 1)
    os.utime(marks[0], (0, 0))
    hits("a hit after a mark", "a", home, client)
    test.check(f"{server.scheme}: the mark", marks[0].exists(), False)
    hits("a hit without a mark", "a", home, by)


def faults(test, server):
    """Faults of a server that has the objects: the call compiles, and each is counted."""
    def fails(label, changes):
        """A call with these variables, on a new machine."""
        label = f"{server.scheme}: {label}"
        done = test.compile(label, "one", "a", test.machine(), **{**server.variables(), **changes})
        test.check(label, (way_of(done), done.counts["server-failed"] > 0), ("recorded", True))
        return done

    for label, changes in server.faulty():
        fails(label, changes)
    server.pause()
    done = fails("a slow server", {"CCK_TIMEOUT": "1"})
    server.resume()
    test.check(f"{server.scheme}: a slow server", "no reply in time" in done.log, True)
    for certificate, wanted in server.certificates_tried():
        other = type(server)(test.room, server.certificates, certificate)
        try:
            label = f"{server.scheme}: a server with the certificate {certificate}"
            done = test.compile(label, "one", "a", test.machine(), **other.variables())
            test.check(label, (way_of(done), done.counts["server-failed"]), ("recorded", wanted))
        finally:
            other.stop()
    server.stop()
    fails("no server", {})
    server.start()


def http_faults(test, server):
    """Faults of an HTTP server: the call compiles, each is counted, and no redirection is followed."""
    if server.scheme != "http" or server.name:
        return
    test.compile("http: a value", "one", "a", test.machine(), **server.variables())
    faulty = servers.Faulty(server.values())
    done = test.compile("http: no fault", "one", "a", test.machine(), **faulty.variables())
    test.check("http: no fault", way_of(done), "hit")
    for fault, changes, event in servers.FAULTS:
        faulty.server.fault = fault
        done = test.compile(f"http: {fault}", "one", "a", test.machine(), **faulty.variables(), **changes)
        test.check(f"http: {fault}", (way_of(done), done.counts[event] > 0), ("recorded", True))
        if event == "server-status-403":
            test.check("http: 403 may be of one request", done.counts[event], 4)
    followed = [path for _, path, _ in faulty.server.requests if path.startswith("/followed")]
    test.check("http: redirections", followed, [])
    faulty.stop()


def redis_faults(test, server):
    """Replies of a Redis server that are not as they have to be: the call compiles, and each is counted."""
    if server.scheme != "redis":
        return
    for reply, wrong, event in servers.REPLIES:
        faulty = servers.WrongRedis(wrong)
        done = test.compile(f"redis: {reply}", "one", "a", test.machine(), **faulty.variables())
        test.check(f"redis: {reply}", (way_of(done), done.counts[event] > 0), ("recorded", True))
        faulty.stop()


# What a program prints that dies in the dialogue, or says what no program says.
DEATHS = ["", "get entry", "get entry 0\\n", "get object 0\\nget object 0\\n", "expand 10 100\\nabc", "expand 10 3\\nabc",
          "get entry 0\\nnothing\\n", "nothing", "miss\\n", "\\n"]
DYING = """#!/bin/sh
case $1 in
look) printf '%s'; kill -9 $$ ;;
esac
exec %s "$@"
"""


def deaths(test, server):
    """A program that dies while it asks leaves no call waiting: the compiler runs, and nothing else is printed."""
    program = server.room / "dying"
    for printed in DEATHS:
        program.write_text(DYING % (printed, test.variables["CCK_PROGRAM"]))
        program.chmod(0o755)
        for changes in ({}, {"CCK_TIMEOUT": "10.5"}):
            label = f"{server.scheme}: a program that prints {printed} and dies, {changes}"
            done = test.compile(label, "one", "a", test.machine(), **server.variables(), **changes, CCK_PROGRAM=str(program))
            test.check(label, (way_of(done), done.counts["passed-error"]), ("passed on", 1))


def modes(test, server):
    """A call that may only read, and an object that is too large."""
    for label, changes, event in (("reads", {"CCK_REMOTE_MODE": "read"}, None),
                                  ("an unknown mode", {"CCK_REMOTE_MODE": "raed"}, None),
                                  ("too large", {"CCK_REMOTE_MAX": "500"}, "server-too-large")):
        label = f"{server.scheme}: {label}"
        for name in server.values():
            server.remove(name)
        variables = {**server.variables(), **changes}
        done = test.compile(label, "one", "a", test.machine(), **variables)
        test.check(label, (way_of(done), len(server.values()), done.counts["server-failed"]), ("recorded", 0, 0))
        if event:
            test.check(label, done.counts[event], 1)
        else:
            test.compile(label, "one", "a", test.machine(), **server.variables())
            done = test.compile(label, "one", "a", test.machine(), **variables)
            test.check(f"{label}: a value that is there", way_of(done), "hit")


def known(test, server):
    """An object that is there, and that a call did not ask for, is not put again by HTTP."""
    for machine, wanted in ((1, 0), (2, int(server.scheme.startswith("http")))):
        label = f"{server.scheme}: machine {machine} puts"
        # With such a directory the call does not look for the text.
        variables = {**server.variables(), "C_INCLUDE_PATH": str(test.room / "one")}
        done = test.compile(label, "one", "b", test.machine(), **variables)
        found = way_of(done), done.counts["server-had-object"], done.counts["server-put-object"]
        test.check(label, found, ("recorded", wanted, 1 - wanted))
        for name in server.values():
            if "entry" in name:
                server.remove(name)


def empty(server):
    """Removes all values."""
    for name in server.values():
        server.remove(name)


def is_mark(name):
    """Whether a value of this name is a mark, which decides only whether a text is made first."""
    return re.search("[:/]mark[:/]", name) is not None


def filled(test, server, **changes):
    """The entry and the object of a compilation that puts them with these variables."""
    empty(server)
    test.compile(f"{server.scheme}: values", "one", "a", test.machine(), **{**server.variables(), **changes})
    return {name: data for name, data in server.values().items() if not is_mark(name)}


def marks(test, server):
    """Without the mark of a compilation, or with another text in its place, its object is not looked for by a text."""
    filled(test, server)
    name, = filter(is_mark, server.values())
    whole = server.values()[name]
    for data, wanted in ((whole, "hit, by its text"), (None, "recorded"), (b"", "recorded"), (b"\0\xff\n-dU\n", "recorded"),
                         (whole.replace(b"-dU", b"-dD"), "recorded"), (b"x\n" * 9999 + whole, "hit, by its text")):
        server.remove(name)
        if data is not None:
            server.set(name, data)
        label = f"{server.scheme}: a mark of {data and data[:40]}"
        done = test.compile(label, "two", "a", test.machine(), **{**server.variables(), "CCK_REMOTE_MODE": "read"})
        test.check(label, (way_of(done), done.counts["server-failed"]), (wanted, 0))


def rejects(test, server, label, name, data, values, **changes):
    """A call with a value in the place of the one of this name, which is not used. A frame that is no file of its size is as
    no value, and noted nowhere."""
    label = f"{server.scheme}: {label}, {name.split('cck')[-1][:12]}"
    server.set(name, data)
    variables = {**server.variables(), "CCK_REMOTE_MODE": "read", **changes}
    done = test.compile(label, "one", "a", test.machine(), **variables)
    is_same = sealed.expanded(data) == sealed.expanded(values[name])
    used = way_of(done) == "hit" or "object" in name and way_of(done) != "recorded"
    test.check(f"{label}: used", used, is_same)
    if not data.startswith(sealed.ZSTD):
        noted = done.counts["server-damaged"] + done.counts["server-forged"] > 0
        test.check(f"{label}: noted", noted, not is_same and data != b"")
    server.set(name, values[name])
    return done


def number_of(values):
    """The number of changes of each value."""
    return int(os.environ.get("DAMAGES", "100")) // (len(SERVERS) * len(values) * 2)


def damage(test, server):
    """Values that are damaged: none is used, and what the call writes is right."""
    for form, changes in (("plain", {}), ("compressed", COMPRESSED)):
        values = filled(test, server, **changes)
        for name in values:
            for _ in range(number_of(values)):
                way = team.chance.choice([way for way in team.WAYS if way not in ("list", "empty", "gone")])
                data = team.damaged(way, values[name], list(values.values()))
                rejects(test, server, f"{form}, {way}", name, data, values)


def forge(test, server):
    """Values that are signed and then changed: none is used with the key."""
    keys = test.keys
    for form, changes in (("signed", keys.signs()), ("signed and compressed", {**keys.signs(), **COMPRESSED})):
        values = filled(test, server, **changes)
        for name in values:
            forged = list(sealed.forgeries(*sealed.place_of(name), values[name], values.values()))
            for _ in range(number_of(values)):
                way = team.chance.choice([way for way in team.WAYS if way not in ("list", "empty", "gone")] + ["forged"] * 9)
                label, data = team.chance.choice(forged)
                if way != "forged":
                    label, data = way, team.damaged(way, values[name], list(values.values()))
                is_same = data == values[name]
                done = rejects(test, server, f"{form}, {label}", name, data, values, **keys.verifies())
                test.check(f"{form}, {label}: forged", done.counts["server-forged"] > 0, not is_same and data != b"")


def signatures(test, server):
    """Values that are signed, and readers with the key, with another one and with none."""
    keys = test.keys
    for changes, key, is_used, event in (
            (keys.both(), keys.verifies(), True, None), (keys.signs(), {}, True, None), ({}, {}, True, None),
            (keys.signs(), keys.verifies(sealed.OTHER_KEY), False, "server-forged"),
            ({}, keys.verifies(), False, "server-forged")):
        label = f"{server.scheme}: put with {sorted(changes)}, read with {key}"
        values = filled(test, server, **changes)
        for name, value in values.items():
            data = sealed.content(value)
            wanted = sealed.signed(sealed.KEY.encode(), *sealed.place_of(name), data) if changes else data
            test.check(f"{label}: the value", value, wanted)
        home = test.machine()
        variables = {**server.variables(), "CCK_REMOTE_MODE": "read", **key}
        done = test.compile(label, "one", "a", home, **variables)
        test.check(label, (way_of(done), done.counts[event] > 0), ("hit" if is_used else "recorded", event is not None))
        done = test.compile(f"{label}, by its text", "two", "a", home, **variables)
        test.check(f"{label}, by its text", way_of(done), "hit, by its text" if is_used else "recorded")
        directory = {"CCK_DIR": str(test.machine() / ".cache/cck")}
        for wanted in ("hit" if is_used else "recorded", "hit"):
            done = test.compile(f"{label}, kept", "one", "a", home, **variables, **directory)
            test.check(f"{label}, kept", way_of(done), wanted)
    # A writer whose key is another one puts its own values in the place of these.
    other = {**keys.signs(sealed.OTHER_KEY), **keys.verifies(sealed.OTHER_KEY)}
    for wanted in ("recorded", "hit"):
        done = test.compile(f"{server.scheme}: another key", "one", "a", test.machine(), **server.variables(), **other)
        test.check(f"{server.scheme}: another key", way_of(done), wanted)
    values = filled(test, server, **keys.both())
    for name in values:
        for label, data in sealed.forgeries(*sealed.place_of(name), values[name], values.values()):
            rejects(test, server, label, name, data, values, **keys.verifies())
    wrong_keys(test, server)


def wrong_keys(test, server):
    """Files that are no keys: the server is not asked."""
    for number, text in enumerate((*sealed.SHORT, None)):
        path = test.room / f"short_{number}"
        if text is not None:
            path.write_bytes(text)
        for variable in ("CCK_SIGN_KEY", "CCK_VERIFY_KEY"):
            label = f"{server.scheme}: {variable} with {text}"
            done = test.compile(label, "one", "a", test.machine(), **server.variables(), **{variable: str(path)})
            test.check(label, (way_of(done), done.counts["server-key"], done.counts["passed-key"]), ("passed on", 1, 1))


COMPRESSED = {"CCK_COMPRESS": "zstd"}


def compression(test, server):
    """Values that are compressed: they are smaller, and what they are made into is right, or they are not used."""
    plain = filled(test, server)
    values = filled(test, server, **COMPRESSED)
    test.check(f"{server.scheme}: names of compressed values", sorted(values), sorted(plain))
    test.check(f"{server.scheme}: they are smaller", all(len(values[name]) < len(plain[name]) for name in plain), True)
    for changes in ({}, test.keys.both()):
        label = f"{server.scheme}: compressed, {sorted(changes)}"
        for source in SOURCES:
            empty(server)
            for wanted in ("recorded", "hit"):
                done = test.compile(f"{label}, {source}.c", "one", source, test.machine(), **server.variables(), **COMPRESSED,
                                    **changes)
                test.check(f"{label}, {source}.c", (way_of(done), done.counts["server-failed"]), (wanted, 0))
    values = filled(test, server, **COMPRESSED)
    for name in values:
        for label, data in sealed.bombs(test.variables["CCK_PROGRAM"], *sealed.place_of(name), plain[name]):
            rejects(test, server, f"a frame {label}", name, data, values)
    # What stands for a PATH without it: the first one can't be run.
    hidden = server.room / "hidden"
    hidden.mkdir()
    (hidden / "zstd").write_text("#!/bin/sh\nexit 127\n")
    (hidden / "zstd").chmod(0o755)
    without = {"PATH": test.variables["PATH"].replace(f"{test.seed}:", f"{test.seed}:{hidden}:", 1)}
    done = test.compile(f"{server.scheme}: no zstd", "one", "a", test.machine(), **server.variables(), **without,
                        CCK_REMOTE_MODE="read")
    test.check(f"{server.scheme}: no zstd", way_of(done), "recorded")
    found = filled(test, server, **COMPRESSED, **without)
    test.check(f"{server.scheme}: no zstd that compresses", found, plain)
    done = test.compile(f"{server.scheme}: another compression", "one", "a", test.machine(), **server.variables(),
                        CCK_COMPRESS="gzip")
    found = way_of(done), done.counts["server-compress"], done.counts["passed-compress"]
    test.check(f"{server.scheme}: another compression", found, ("passed on", 1, 1))


def rechecked(test, server):
    """With CCK_RECHECK a hit of the server is compared with what the compiler makes."""
    for name in server.values():
        server.remove(name)
    for way, checkout in (("recorded", "one"), ("hit", "one"), ("hit, by its text", "two")):
        label = f"{server.scheme}: recheck, {way}"
        done = test.compile(label, checkout, "b", test.machine(), **server.variables(), CCK_RECHECK="1")
        found = way_of(done), done.counts["recheck"], done.counts["recheck-differs"], done.counts["server-failed"]
        test.check(label, found, (way, int(way != "recorded"), 0, 0))


def secrets(test, found):
    """No secret is where another user or the compiler can see it."""
    seen = {name: (test.seed / name).read_text() for name in ("arguments", "environment")}
    seen["arguments"] += test.arguments
    test.check("arguments were watched", not set(WATCHED).isdisjoint(seen["arguments"].split("\n")), True)
    test.check("the environment was watched", "CCK_PROGRAM=" in seen["environment"], True)
    for name, text in {**seen, "log": test.logs}.items():
        for secret in servers.SECRETS + sealed.KEYS:
            test.check(f"the {name}: a secret", secret in text, False)
    test.check("arguments of processes", found, [])


class Processes(threading.Thread):
    """Looks at the arguments of all processes for secrets, and at their environments for keys, again and again."""

    def __init__(self):
        super().__init__(daemon=True)
        self.found, self.ends = [], False

    def run(self):
        while not self.ends:
            for file, secrets in (("cmdline", servers.SECRETS + sealed.KEYS), ("environ", sealed.KEYS)):
                self.found += [words for words in words_of(file) if any(word in words for word in secrets)]
            time.sleep(0.01)

    def __enter__(self):
        self.start()
        return self

    def __exit__(self, *_):
        self.ends = True
        self.join()


def words_of(file):
    """The arguments or the environment of each process."""
    for path in glob.glob(f"/proc/[0-9]*/{file}"):
        try:
            yield pathlib.Path(path).read_bytes().decode(errors="replace")
        except OSError:
            pass


SERVERS = [servers.Redis, servers.RedisByTls, servers.RedisBySocket, servers.Nginx, servers.NginxByTls,
           servers.Lighttpd]
CHECKS = [checkouts, clients, faults, http_faults, redis_faults, deaths, known, modes, marks, signatures, compression,
          damage, forge, rechecked]


def chosen(items, names, name_of):
    """The items that are named, or all if none is."""
    return [item for item in items if name_of(item) in names] or items


def tried(test, names):
    """Makes the checks."""
    for check in (addresses, sealed.seals):
        if not names or check.__name__ in names:
            check(test)
    certificates = servers.Certificates(test.room / "certificates")
    for kind in chosen(SERVERS, names, lambda kind: kind.name or kind.scheme):
        server = kind(test.room, certificates)
        try:
            for check in chosen(CHECKS, names, lambda check: check.__name__):
                check(test, server)
        finally:
            server.stop()


def main(names):
    with tempfile.TemporaryDirectory() as room:
        test = Test(os.path.realpath(room))
        # The watch finds a secret that is an argument.
        with Processes() as processes:
            subprocess.run(["sh", "-c", "sleep 0.5", servers.SECRETS[0]], check=True)
        test.check("the watch of arguments", bool(processes.found), True)
        strict = subprocess.run(["perl", "-Mstrict", "-Mwarnings", "-c", str(TOP / "lib/cckcc/connect.pl")], check=False,
                                capture_output=True, text=True)
        test.check("the script for hits", strict.stderr, f"{TOP}/lib/cckcc/connect.pl syntax OK\n")
        with Processes() as processes:
            tried(test, names)
        secrets(test, processes.found)
    print(f"team_servers: {test.passed} passed, {test.failed} failed")
    return 1 if test.failed else 0


if __name__ == "__main__":
    sys.exit(main(sys.argv[1:]))
