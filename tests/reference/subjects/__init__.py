"""Adapters: one module for each library of cases, which makes the calls that its vector files name.

An adapter is a class `Subject` (see `BaseSubject` in `cases.py`). It has no rule of its own: it hands
over what lines gave, and writes what the reference returns.
"""
