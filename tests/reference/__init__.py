"""A plain program that computes all that `cck` computes, from docs/FORMATS.md and docs/DEFINITIONS.md."""

import sys

# Numbers of any length are read, with any zeros in front.
sys.set_int_max_str_digits(0)
