"""Shows by which clause the prover rejects each edit of the gate: `python3 tests/edit_lines.py [CRATE..]`.

For each edit it prints the changed function and the prover's line on it, as edits_together.py does for those of
tests/edits/, with the same options. Its exit status is 1 if an edit is not rejected, or only for a name or a type."""
from edit_files import gate_edits
from edits_together import main

if __name__ == "__main__":
    main(__doc__, gate_edits)
