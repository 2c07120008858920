"""Plays a history of steps in a room, shrinks one that shows a difference to the smallest list of steps, and prints
it as a script of a shell."""
import copy
import os
import shlex
import shutil
import tempfile
import time

from calls import PAUSE, WRAPPER, Room, remove

CWD = "work"


def text_of(step):
    """The contents of a file: its snippets, each of lines of its own, within a guard if it has one."""
    text = "".join(snippet + "\n" for snippet in step["snippets"])
    guard = step["guard"]
    return f"#ifndef {guard}\n#define {guard}\n{text}#endif\n" if guard else text


def apply(step, root):
    """Does to a tree what a step says. One that does not fit the tree, as after a shrink, does nothing."""
    path = os.path.join(root, step["path"])
    try:
        os.makedirs(os.path.dirname(path), exist_ok=True)
        DOES[step["do"]](step, path, root)
    except OSError:
        pass


def write(step, path, root):
    status = os.stat(path) if os.path.isfile(path) else None
    if os.path.islink(path) or os.path.isdir(path):
        remove(path)
    with open(path, "w", encoding="utf-8") as file:
        file.write(text_of(step).replace("@root", root))
    if step.get("keeps") and status:
        os.utime(path, ns=(status.st_atime_ns, status.st_mtime_ns))


def link(step, path, root):
    remove(path)
    os.symlink(step["to"].replace("@root", root), path)


def directory(step, path, root):
    if not os.path.isdir(path):
        remove(path)
        os.makedirs(path)


def rename(step, path, root):
    to = os.path.join(root, step["to"])
    os.makedirs(os.path.dirname(to), exist_ok=True)
    os.rename(path, to)


def exchange(step, path, root):
    between = path + ".between"
    to = os.path.join(root, step["to"])
    if os.path.lexists(to):
        os.rename(path, between)
        os.rename(to, path)
        os.rename(between, to)


def hard(step, path, root):
    """Another name of a file, in the place of what there is."""
    to = os.path.join(root, step["to"])
    if os.path.isfile(to) and not (os.path.exists(path) and os.path.samefile(to, path)):
        remove(path)
        os.link(os.path.realpath(to), path)


def again(step, path, root):
    """A directory or a file that is removed, and made again with the same contents."""
    kept = path + ".kept"
    if os.path.isdir(path) and not os.path.islink(path):
        shutil.copytree(path, kept, symlinks=True)
    else:
        shutil.copy2(path, kept, follow_symlinks=False)
    remove(path)
    os.rename(kept, path)


def touch(step, path, root):
    os.utime(path, None if step["seconds"] is None else (step["seconds"],) * 2)


def alike(step, path, root):
    """The times of one file for another one: both are changed within one tick of the system's clock."""
    other = os.path.join(root, step["to"])
    for _ in range(100):
        for place in (path, other):
            os.utime(place, (1000000000, 1000000000))
        if os.stat(path).st_ctime_ns == os.stat(other).st_ctime_ns:
            return


def mode(step, path, root):
    os.chmod(path, step["mode"])


DOES = {"write": write, "mode": mode, "link": link, "directory": directory, "rename": rename, "touch": touch,
        "exchange": exchange, "hard": hard, "again": again, "alike": alike,
        "remove": lambda step, path, root: remove(path), "sleep": lambda step, path, root: time.sleep(step["seconds"])}


def call_of(step, root, compiler):
    """The words, the directory, the variables and the umask of a call."""
    words = [word.replace("@root", root) for group in step["words"] for word in group]
    variables = {name: value.replace("@root", root) for name, value in step["variables"].items()}
    return [compiler, *words], step["directory"], variables, step["umask"]


def late_of(step, root):
    """What a call has written when its recording begins: the path and the text, or None."""
    late = step.get("late")
    return (late["path"], text_of(late).replace("@root", root)) if late else None


def rooms(step, room):
    """The room in which a call is made, if it has the directory. Another step is done, and there is none."""
    if step["do"] == "checkout":
        room.add_checkout()
    elif step["do"] != "call":
        for checkout in room.checkouts(step):
            apply(step, checkout.root)
    else:
        for checkout in room.checkouts(step)[:1]:
            if os.path.isdir(os.path.join(checkout.root, step["directory"])):
                yield checkout


def play(history, compiler, room):
    """Plays a history, and gives the place and the judgement of each call, which both compilers make."""
    for place, step in enumerate(history):
        for checkout in rooms(step, room):
            call = call_of(step, checkout.root, compiler)
            yield place, checkout.judge(call, [WRAPPER, *call[0]], step["waits"], late_of(step, checkout.root))


class Fresh:
    """A room that is removed at the end."""

    def __enter__(self):
        self.room = Room(tempfile.mkdtemp(prefix="cck-"))
        return self.room

    def __exit__(self, *_):
        self.room.server.stop()
        shutil.rmtree(self.room.top, ignore_errors=True)


def last(history, compiler):
    """The judgement of the last call, where the wrapper alone makes the calls before it; None without its directory."""
    with Fresh() as room:
        for step in history[:-1]:
            for checkout in rooms(step, room):
                time.sleep(2 * PAUSE if step["waits"] else 0)
                call = call_of(step, checkout.root, compiler)
                checkout.run_cached(call, [WRAPPER, *call[0]], late_of(step, checkout.root))
        return next((judged for _, judged in play(history[-1:], compiler, room)), None)


class Shrink:
    """The smallest history that this finds within some seconds, in which the last call has the same verdict and one of
    the same outputs differs."""

    def __init__(self, history, judged, compiler, seconds):
        self.history, self.judged, self.compiler = history, judged, compiler
        self.end = time.time() + seconds
        calls = [place for place, step in enumerate(history[:-1]) if step["do"] == "call"]
        pairs = [set(calls) - {kept} for kept in calls[:-6:-1] + calls[:2]]
        # What shows another second has to wait for it.
        wait = [{"do": "sleep", "path": ".", "seconds": 1.1}]
        self.holds = any(self.shows([step for place, step in enumerate(history[:-1]) if place not in dropped] + pause +
                                    history[-1:]) for pause in ([], wait) for dropped in pairs + [set()])
        changed = self.holds
        while changed and time.time() < self.end:
            size = self.size()
            for part in (self.drop_calls, self.drop_steps, self.drop_words, self.drop_variables, self.drop_snippets,
                         self.drop_guards, self.drop_late):
                part()
            changed = self.size() < size

    def size(self):
        return len(str(self.history))

    def shows(self, history):
        """Whether a history shows the difference; it is the history then."""
        if time.time() > self.end:
            return False
        judged = last(history, self.compiler)
        shows = bool(judged) and judged.verdict == self.judged.verdict and any(
            name.split()[0] in [other.split()[0] for other in self.judged.differing] for name in judged.differing)
        if shows:
            self.history, self.judged = history, judged
        return shows

    def drop(self, places):
        return self.shows([step for place, step in enumerate(self.history) if place not in places])

    def drop_calls(self):
        """All calls but the last one and one before it, else as many as need not be."""
        calls = [place for place, step in enumerate(self.history[:-1]) if step["do"] == "call"]
        if len(calls) > 1 and not any(self.drop(set(calls) - {kept}) for kept in reversed(calls)):
            self.drop_parts(lambda: [place for place, step in enumerate(self.history[:-1]) if step["do"] == "call"])

    def drop_steps(self):
        self.drop_parts(lambda: list(range(len(self.history) - 1)))

    def drop_parts(self, places):
        """Drops halves, quarters, and so on down to single ones."""
        size = max(1, len(places()) // 2)
        while size and time.time() < self.end:
            start = len(places())
            while start > 0:
                start = min(start, len(places()))
                self.drop(set(places()[max(0, start - size):start]))
                start -= size
            size //= 2

    def each(self, kinds, parts, without):
        """Drops a part from all steps that have it, else from one of them."""
        for part in sorted({str(part): part for step in self.history for part in parts(step)}.items()):
            having = [place for place, step in enumerate(self.history)
                      if step["do"] in kinds and part[1] in parts(step)]
            for places in [having] + ([[place] for place in having] if len(having) > 1 else []):
                history = copy.deepcopy(self.history)
                for place in places:
                    without(history[place], part[1])
                if self.shows(history):
                    break

    def drop_words(self):
        def without(step, group):
            step["words"] = [other for other in step["words"] if other != group]
        self.each(["call"], lambda step: step.get("words", []), without)

    def drop_variables(self):
        self.each(["call"], lambda step: list(step.get("variables", {})),
                  lambda step, name: step["variables"].pop(name))

    def drop_snippets(self):
        def without(step, snippet):
            step["snippets"] = [other for other in step["snippets"] if other != snippet]
        self.each(["write"], lambda step: step.get("snippets", []), without)

    def drop_guards(self):
        self.each(["write"], lambda step: [step["guard"]] if step.get("guard") else [],
                  lambda step, guard: step.update(guard=""))

    def drop_late(self):
        self.each(["call"], lambda step: [step["late"]] if step.get("late") else [], lambda step, late: step.pop("late"))


# A history as a script.

def quoted(word):
    """A word for a shell, in which the top of the tree is a variable."""
    parts = word.split("@root")
    return '"$root"'.join(shlex.quote(part) if part or not word else "" for part in parts)


def path_in_script(path):
    return quoted(os.path.relpath(path, CWD))


def write_line(step):
    path, text = path_in_script(step["path"]), text_of(step)
    line = f"printf %s {quoted(text)} >{path}" if "\\" in text else "printf " + quoted(
        text.replace("%", "%%").replace("\n", "\\n")) + f" >{path}"
    return f"touch -r {path} ../kept; {line}; touch -r ../kept {path}" if step.get("keeps") else line


def late_line(late):
    """What makes a program that does what is late and then calls the one of the variable `real`."""
    records = shlex.quote(f'case $* in record*--compiled=*) (cd "$root/{CWD}"; {write_line(late)}) ;; esac')
    lines = f"printf '%s\\n' '#!/bin/sh' {records} 'exec \"$real\" \"$@\"'"
    return f"{lines} >\"$root/cck_cache\"; chmod +x \"$root/cck_cache\"; "


def call_line(step, compiler):
    words = " ".join(quoted(word) for group in step["words"] for word in group)
    variables = "".join(f"{name}={'$server' if value == '@server' else quoted(value)} "
                        for name, value in sorted(step["variables"].items()))
    around = "" if step["directory"] == CWD else f"cd {path_in_script(step['directory'])}; "
    around += "" if step["umask"] == 0o022 else f"umask {step['umask']:03o}; "
    line = f"{variables}{compiler} {words}"
    if step.get("late"):
        around = late_line(step["late"]) + around
        line = f"root=$root real=$CCK_PROGRAM CCK_PROGRAM=$root/cck_cache {line}"
    return ("sleep 0.1; " if step["waits"] else "") + (f"({around}{line})" if around else line)


def touch_line(step):
    moment = "" if step["seconds"] is None else f"-d @{step['seconds']} "
    return f"touch {moment}{path_in_script(step['path'])}"


def link_line(step):
    path = path_in_script(step["path"])
    return f"rm -rf {path}; ln -s {quoted(step['to'])} {path}"


LINES = {"write": write_line, "link": link_line, "touch": touch_line,
         "directory": lambda step: "mkdir -p " + path_in_script(step["path"]),
         "remove": lambda step: "rm -rf " + path_in_script(step["path"]),
         "rename": lambda step: f"mv {path_in_script(step['path'])} {path_in_script(step['to'])}",
         "exchange": lambda step: "mv {0} k; mv {1} {0}; mv k {1}".format(path_in_script(step["path"]),
                                                                         path_in_script(step["to"])),
         "hard": lambda step: f"ln -f {path_in_script(step['to'])} {path_in_script(step['path'])}",
         "again": lambda step: "cp -a {0} k; rm -r {0}; mv k {0}".format(path_in_script(step["path"])),
         "alike": lambda step: f"touch -d @1000000000 {path_in_script(step['path'])} {path_in_script(step['to'])}",
         "checkout": lambda step: "",
         "mode": lambda step: f"chmod {step['mode']:03o} {path_in_script(step['path'])}",
         "sleep": lambda step: f"sleep {step['seconds']}"}


def checkout_line(step, line, has_second):
    """A line for one of two checkouts, or for both."""
    if not has_second or not line:
        return line
    place = step.get("in", 0 if step["do"] == "call" else None)
    if place is None:
        return f"for root in $top/tree $top/second; do cd $root/{CWD}; {line}; done"
    return f"root=$top/{['tree', 'second'][place]}; cd $root/{CWD}; {line}"


def script(history, judged, compiler):
    """The lines of a script, which is run in an empty directory, and a remark that says what differs."""
    has_second = any(step["do"] == "checkout" for step in history)
    lines, made = ["root=$PWD; mkdir work; cd work"], {CWD, ""}
    if has_second:
        lines = ["top=$PWD server=redis://127.0.0.1:6379/0; mkdir -p tree/work second/work"]
    for step in history:
        if step["do"] == "call":
            lines.append(checkout_line(step, call_line(step, "cckcc " + compiler), has_second))
            continue
        for path in [step["path"]] + ([step["to"]] if step["do"] in ("rename", "exchange") else []):
            if os.path.dirname(path) not in made and step["do"] not in ("sleep", "checkout"):
                made.add(os.path.dirname(path))
                lines.append(checkout_line({"do": ""}, "mkdir -p " + path_in_script(os.path.dirname(path)), has_second))
        lines.append(checkout_line(step, LINES[step["do"]](step), has_second))
    lines = [line for line in lines if line]
    return lines + [f"# a {judged.verdict}; differs from {compiler}: {', '.join(judged.differing)}"]
