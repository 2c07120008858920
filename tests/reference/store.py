"""The store in memory."""
from .armed import ArmedCalls
from .errors import Refused


class MapStore:
    """`State`: the pairs that a store holds, its count of store failures, and which calls are armed."""

    def __init__(self):
        self.pairs = {}
        self.failures = 0
        self.forgetting = 0
        self.armed = ArmedCalls()

    def held(self, key):
        """The bytes that are held under a key, or None."""
        return self.pairs.get(key)

    def forget_at(self, n):
        """The nth of the following calls forgets all that is held before it acts; 0 disarms."""
        self.forgetting = n

    def fail_at(self, n):
        """The nth of the following calls fails, and returns and puts nothing; 0 disarms."""
        self.armed.one = n

    def fail_after(self, n):
        """The nth of the following calls and all after it fail; 0 disarms."""
        self.armed.onward = n

    def count_failure(self):
        """`more`: one more store failure."""
        self.failures += 1

    def call(self):
        """Counts one call, and does what is armed for it: to forget comes before to fail."""
        forgets = self.forgetting == 1
        fails = self.armed.begin()
        self.forgetting = max(self.forgetting - 1, 0)
        if forgets:
            self.pairs = {}
            self.count_failure()
        if fails:
            self.count_failure()
            raise Refused("Fault")

    def get(self, key):
        """`IsGot`: the bytes that are held under the key, or None."""
        self.call()
        return self.held(key)

    def put(self, key, data):
        """`IsPut`: these bytes alone are held under the key."""
        self.call()
        self.pairs[key] = data


class EmptyStore:
    """The store that keeps nothing: its count of store failures."""

    def __init__(self):
        self.failures = 0

    def get(self, key):
        """Nothing is held."""
        return None

    def put(self, key, data):
        """A put fails, which is a store failure."""
        self.failures += 1
        raise Refused("Fault")
