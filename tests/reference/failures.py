"""Each failure of one cause in turn, over the calls of a script."""
import collections
import copy
import dataclasses

from .calls import CallResult, number_of, run_calls
from .entry import add_result, entry_bytes, read_entry
from .errors import is_fault
from .program import result_line, conditions_of, each_call
from .store import MapStore


def own_calls(lines):
    """The calls of a script, each over files of its own."""
    return [dataclasses.replace(call, files=call.files.copy()) for call in each_call(lines)]


def first_pair(lines, others, path):
    """What a store holds at first under the key of the first call: an entry of its own result, and so
    many others of one path, whose recorded digest no file has."""
    call, files = own_calls(lines)[0], own_calls(lines)[0].files
    store = MapStore()
    run_calls([call], conditions_of(lines), store)
    [(key, own)] = store.pairs.items()
    entry = read_entry(own)
    for number in range(others):
        entry = add_result(entry, files, call.moment, b"z%d" % number, [(b"none", path)])
    return key, entry_bytes(entry)


@dataclasses.dataclass
class Failure:
    """The nth call on the files of the call at a place, or the nth get or put, once or with all later
    ones. The causes are `files`, `store` and `forget`."""

    cause: str
    is_once: bool
    place: int
    n: int

    def arm_files(self, files, place):
        """Arms the files of the call at a place."""
        if self.cause == "files" and place == self.place:
            (files.fail_at if self.is_once else files.fail_after)(self.n)
        elif self.cause == "files" and place > self.place and not self.is_once:
            files.fail_after(1)

    def arm_store(self, store):
        """Arms the store."""
        if self.cause == "forget":
            store.forget_at(self.n)
        elif self.cause == "store":
            (store.fail_at if self.is_once else store.fail_after)(self.n)

    def is_met(self, place, on_files, on_store):
        """Whether one of the calls on files, or of the gets and puts, that a call made is to fail."""
        if self.cause == "files" and place != self.place:
            return place > self.place and not self.is_once and on_files > 0
        made = range(1, on_files + 1) if self.cause == "files" else on_store
        return any(n == self.n or n > self.n and not self.is_once for n in made)

    def allows(self, plain, call_result):
        """Whether a call that meets the failure may return this, where it returns `plain` alone."""
        if isinstance(call_result, CallResult):
            return isinstance(plain, CallResult) and call_result.key == plain.key
        if self.cause == "files" and call_result.name in ("Extra", "Input", "Preprocess") and is_fault(call_result):
            return True
        if self.cause == "store" and call_result.name == "Store":
            return True
        return result_line(call_result) == result_line(plain)


class Runs:
    """The calls of a script, made again and again under failures, and what was seen."""

    def __init__(self, lines, first):
        self.lines = lines
        self.first = first
        self.conditions = conditions_of(lines)
        self.alone = []
        for call in own_calls(lines):
            store = MapStore()
            self.alone.append((self.make(call, store), store.pairs))
        self.count = 0
        self.seen = collections.Counter()
        self.wrong = 0
        self.printed = b""

    def make(self, call, store):
        """The result of one call."""
        return run_calls([call], self.conditions, store)[0]

    def is_own(self, pairs, place):
        """Whether each pair is the own pair of a call up to a place."""
        owns = [own for _, own in self.alone[: place + 1]]
        owns.append(dict([self.first] if self.first else []))
        return all(any(own.get(key) == data for own in owns) for key, data in pairs.items())

    def is_as_held(self, place, held, call_result, pairs):
        """Whether the call_result of a call and the pairs after it are those that the pairs before it give."""
        store = MapStore()
        store.pairs = held
        expected = self.make(own_calls(self.lines)[place], store)
        return result_line(expected) == result_line(call_result) and store.pairs == pairs

    def run(self, failure, store_text):
        """Makes all calls under a failure, and says whether it was met; if not, nothing is counted."""
        store = MapStore()
        if self.first:
            store.put(*self.first)
        start = store.armed.calls
        failure.arm_store(store)
        has_met, results, printed = False, [], b""
        for place, call in enumerate(own_calls(self.lines)):
            held, before = copy.copy(store.pairs), store.armed.calls
            failure.arm_files(call.files, place)
            call_result = self.make(call, store)
            printed += result_line(call_result)
            made = range(before + 1 - start, store.armed.calls + 1 - start)
            if failure.is_met(place, call.files.armed.calls, made):
                has_met = has_met or failure.cause != "files" or place == failure.place
                is_right = failure.allows(self.alone[place][0], call_result)
                is_right = is_right and self.is_own(store.pairs, place)
            else:
                is_right = self.is_as_held(place, held, call_result, store.pairs)
            results.append((call_result, is_right))
        if has_met:
            self.count += 1
            self.printed += printed + store_text(store) + b"\n"
            for call_result, is_right in results:
                self.seen[word_of(call_result)] += 1
                self.wrong += not is_right
        return has_met


def word_of(call_result):
    """`hits` and `misses` for keys, and the number of an error."""
    if isinstance(call_result, CallResult):
        return "misses" if call_result.is_fresh else "hits"
    return number_of(call_result)


def runs_of(lines, first, cause, is_once, store_text):
    """All runs: each call of a cause fails in turn, until a run meets no failure."""
    runs = Runs(lines, first)
    for place in range(len(runs.alone) if cause == "files" else 1):
        n = 1
        while runs.run(Failure(cause, is_once, place, n), store_text):
            n += 1
    return runs
