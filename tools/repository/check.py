"""Runs what the gate checks besides `rt ci`: documents, refusals, rows, the version, the tools' programs and tests.

It needs `rt version` and Python's standard library. Each part runs, whatever the others say. The status is 1 if one
fails.
"""

import sys
import traceback

from tools import Failed
from tools.repository import believed, c_manual, clauses, client_texts, command_words, definitions, make_rows
from tools.repository import mentions, program_crates, proofs, prose, test, version

PARTS = {
    "believed": lambda: believed.main(check=True),
    "c_manual": c_manual.main,
    "clauses": lambda: clauses.main([], check=True),
    "client_texts": client_texts.main,
    "command_words": command_words.main,
    "definitions": lambda: definitions.main(check=True),
    "make_rows": lambda: make_rows.main(check=True),
    "mentions": mentions.main,
    "program_crates": program_crates.main,
    "proofs": lambda: proofs.main(check=True),
    "prose": prose.main,
    "test": test.main,
    "version": version.main,
}


def passes(part):
    """Whether a part finds nothing wrong. An error of its own is a fault too."""
    try:
        return not part()
    except Failed as failed:
        print(failed.reason, file=sys.stderr)
    except Exception:
        traceback.print_exc()
    return False


def main():
    failed = [name for name, part in PARTS.items() if not passes(part)]
    print(f"check: {', '.join(failed)} failed" if failed else f"check: {', '.join(PARTS)} are right", flush=True)
    return int(bool(failed))
