"""Calls of which some are armed to fail."""

GREATEST_COUNT = 2**64 - 1


class ArmedCalls:
    """`Armed`: the call that is armed alone and the first of those that all are, counted from 1 and 0
    for none, and how many calls came."""

    def __init__(self):
        self.one = 0
        self.onward = 0
        self.calls = 0

    def begin(self):
        """`fails` and `after_call`: counts a call, and whether it fails."""
        fails = 1 in (self.one, self.onward)
        self.one = max(self.one - 1, 0)
        if self.onward != 1:
            self.onward = max(self.onward - 1, 0)
        self.calls = min(self.calls + 1, GREATEST_COUNT)
        return fails
