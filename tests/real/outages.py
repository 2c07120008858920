"""Kills the parts of calls, fills devices, and takes rights and directories away: each call, and each one after it, has to
end as the plain compiler's in the same place. Run by tests/real_faults.sh, in an empty directory. The words name the parts
that run; without words all run."""
import collections
import os
import shutil
import signal
import subprocess
import time

from outcomes import (LOG, PROGRAM, ROOM, SCRATCH, STORE, TEMPORARY, Device, call, chance, check, compare, contents, forget,
                      made, run, settle, variables, words_of, write)

NOBODY = 65534


def below(pid):
    """The processes that a process started, and that these did, with their names."""
    try:
        children = contents(f"/proc/{pid}/task/{pid}/children").split()
        name = contents(f"/proc/{pid}/comm").decode().strip()
        return [(pid, name)] + [one for child in children for one in below(int(child))]
    except OSError:
        return []


def is_left(group):
    """Whether a process of a group is left."""
    try:
        os.killpg(group, 0)
        return True
    except ProcessLookupError:
        return False


def strike(process, target, delay):
    """Kills the wrapper of a call, its group or a program of this name, after a time. Returns whether it was there."""
    time.sleep(delay)
    while process.poll() is None:
        if target == "group":
            os.killpg(process.pid, signal.SIGKILL)
            return True
        victims = [process.pid] if target == "wrapper" else [pid for pid, name in below(process.pid) if name == target]
        if victims:
            try:
                os.kill(chance.choice(victims), signal.SIGKILL)
                return True
            except ProcessLookupError:
                pass
        time.sleep(0.001)
    return False


def left_behind():
    """The numbers of temporary files in the store, beside outputs, and of temporary directories."""
    new = sum(".new" in name for _, _, names in os.walk(STORE) for name in names)
    return {"store": new, "outputs": sum(".new" in name for name in os.listdir(".")), "scratch": len(os.listdir(SCRATCH))}


def state_of(number):
    """Writes the sources of a state."""
    write("k.h", f"#define V {number}\n")
    settle()


def killed_once(target, wanted, counts, times):
    """A call that is killed, and calls after it. `times` has how long a call takes, by what the log says of it."""
    number = chance.randrange(len(wanted))
    state_of(number)
    kind = "hit"
    if target in ("cc1", "as") or chance.random() < 0.6:
        kind = "recorded"
        shutil.rmtree(STORE + chance.choice(["", "/entries", "/entries", "/entries"]), ignore_errors=True)
    delay = 0 if target == "as" else chance.random() * times[kind] * 0.8
    with open("said", "wb") as said:
        process = subprocess.Popen(["cckcc", *words_of("k.c")], env=variables(), stdout=said, stderr=said,
                                   start_new_session=True)
    was_killed = strike(process, target, delay)
    counts[target] += was_killed
    status = process.wait()
    while is_left(process.pid):
        time.sleep(0.01)
    if target not in ("group", "wrapper") and status == 0:
        check(f"{target} killed: outputs", made() == wanted[number].files)
        said = TEMPORARY.sub(b"/ccXXXXXX", contents("said"))
        if said != wanted[number].messages:
            counts["noise"] += 1
            print(f"{target} killed: messages {said}", flush=True)
    check(f"{target} killed: status", status in (0, 1, -9), status)
    begun = time.monotonic()
    check(f"{target} killed: next call", call(["cckcc", *words_of("k.c")]) == wanted[number])
    times[contents(LOG).decode().splitlines()[-1].split()[1]] = time.monotonic() - begun
    if was_killed and not chance.randrange(8):
        check(f"{target} killed: another call", call(["cckcc", *words_of("other.c")]) == counts["other"])


def killed(number):
    """Calls of which a part is killed at a random moment. What they leave in the store has to be sound."""
    write("k.c", '#include "k.h"\nint k(void) { int unused; return V; }\n')
    write("other.c", "int other;\n")
    wanted = []
    for state in range(6):
        state_of(state)
        wanted.append(call(words_of("k.c")))
    counts = collections.Counter()
    counts["other"] = call(words_of("other.c"))
    times = collections.defaultdict(lambda: 0.3)
    call(["cckcc", *words_of("other.c")])
    # (the system keeps 15 characters of a name)
    targets = ["wrapper", os.path.basename(PROGRAM)[:15], "cc1", "as", "group"]
    while sum(counts[target] for target in targets) < number:
        killed_once(min(targets, key=lambda target: counts[target]), wanted, counts, times)
        calls = counts["calls"] = counts["calls"] + 1
        if calls % 50 == 0:
            said = subprocess.run([PROGRAM, "verify", STORE], capture_output=True, text=True, check=False).stdout
            check("verify", "removed 0" in said or not os.path.exists(STORE), said)
            print(f"killed, {calls} calls:", {name: counts[name] for name in [*targets, "noise"]}, left_behind(), flush=True)
    check("the compiler is known after all kills", compare("a call after all kills", words_of("k.c")) != "passed")


def fill(place, left=0):
    """Fills a device but for some bytes."""
    try:
        with open(place + "/fill", "wb", buffering=0) as file:
            while file.write(bytes(4096)) == 4096:
                pass
    except OSError:
        pass
    os.truncate(place + "/fill", max(os.path.getsize(place + "/fill") - left, 0))


def full():
    """A store, a directory of outputs, and one of temporary files, without room or without inodes."""
    write("f.c", "#warning one\n#warning two\nchar f[20000] = {1};\n")
    settle()
    words = words_of(ROOM + "/f.c")
    found = collections.Counter()
    for size in (0, 4096, 32768):
        with Device("device", "size=256k") as place:
            os.makedirs(place + "/store")
            fill(place, size)
            found["store", compare(f"a store with {size} bytes left", words, CCK_STORE=place + "/store")] += 1
            os.unlink(place + "/fill")
            found["store", compare("a store with room again", words, CCK_STORE=place + "/store")] += 1
            check("what a full store leaves", not [name for _, _, names in os.walk(place) for name in names if ".new" in name])
    for inodes in (3, 8, 12):
        with Device("device", f"size=256k,nr_inodes={inodes}") as place:
            found["inodes", compare(f"a store with {inodes} inodes", words, CCK_STORE=place + "/store")] += 1
    compare("room", words)
    for size in (0, 4096, 16384):
        with Device("device", "size=256k") as place:
            fill(place, size)
            found["outputs", compare(f"outputs, {size} bytes left", words, place)] += 1
    for size in (0, 8192):
        for more in ([], ["-pipe"]):
            with Device("device", "size=256k") as place:
                fill(place, size)
                forget()
                label = f"temporary files {more}, {size} bytes left"
                found["temporary", compare(label, [*words, *more], TMPDIR=place)] += 1
    for inodes in (2, 4, 9, 10, 11, 12, 20):
        with Device("device", f"size=1m,nr_inodes={inodes}") as place:
            forget()
            found["inodes", compare(f"temporary files, {inodes} inodes", words, TMPDIR=place)] += 1
    print("full devices:", dict(found))


def unusable():
    """A store and a directory of temporary files that are not there, can't be written or are no directory."""
    write("n.c", "#warning one\nint n;\n")
    settle()
    words, found = words_of("n.c"), collections.Counter()
    compare("a recording", words)
    os.makedirs("readonly", exist_ok=True)
    os.makedirs("closed", 0o700, exist_ok=True)
    os.makedirs("theirs", exist_ok=True)
    os.chown("theirs", NOBODY, NOBODY)
    os.symlink("/nowhere/store", "dangling")
    subprocess.run(["mount", "--bind", STORE, "readonly"], check=True)
    try:
        subprocess.run(["mount", "-o", "remount,bind,ro", "readonly"], check=True)
        found["read-only, a hit", compare("a read-only store", words, CCK_STORE=ROOM + "/readonly")] += 1
        found["read-only, a miss", compare("a read-only store", [*words, "-O1"], CCK_STORE=ROOM + "/readonly")] += 1
    finally:
        subprocess.run(["umount", "readonly"], check=True)
    for name in ("closed", "n.c", "dangling", "n.c/store"):
        how = {"user": NOBODY, "CCK_STORE": f"{ROOM}/{name}", "TMPDIR": "/tmp", "CCK_LOG": "/dev/null"}
        compare(f"the store {name}", ["gcc", "-Wall", "-MD", "-c", "../n.c", "-o", "o.o"], "theirs", **how)
    for place in ("/nowhere", ROOM + "/n.c", "/proc/self", "relative"):
        forget()
        found["TMPDIR", compare(f"TMPDIR={place}", words, TMPDIR=place)] += 1
    print("unusable places:", dict(found))


if __name__ == "__main__":
    run({"killed": lambda: killed(int(os.environ.get("KILLS", "300"))), "full": full, "unusable": unusable})
