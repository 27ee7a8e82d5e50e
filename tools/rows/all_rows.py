"""All rows, in the order in which `script_rows` runs them.

- Those of the files `*.rows`, written by hand, each line beside its answer (`script_row.py` has the form).
- Lines that are no commands (`bad_rows.py`).
- Syncs that a crash follows (`sync_rows.py`), rows with many lines of one kind, and rows at a limit (`limit_rows.py`).
- Crashes of whole pools (`crash_rows.py`): rounds of transactions, a sync, the log or an import that is stopped after
  each of its device calls, each string of kept, lost and torn writes, and the next import. The same of syncs that give
  the pool a name, and of imports after them (`name_rows.py`).
- The same of objects that go from one level of indirect blocks to two and back (`level_rows.py`).
- Imports that let so many blocks stay in memory (`cache_rows.py`).
- Rounds of worked rows and of those of the log, whose calls are refused, which are stopped, and whose imports are
  stopped; and of creates that are stopped (`stop_rows.py`).

The answers to the crashes come from a plain serial pool (`tools/model/serial_pool.py`) and from the rules of what is
written when. Nothing is taken from a program.
"""

from tools.rows.bad_rows import bad_lines, silent_lines
from tools.rows.cache_rows import rooms
from tools.rows.crash_rows import (
    lost_log_blocks,
    lost_parts,
    stopped_imports,
    stopped_replays,
    stopped_replays_of_long_records,
    stopped_syncs,
    syncs_beside_log,
    syncs_beside_long_records,
)
from tools.rows.level_rows import stopped_levels, stopped_replays_of_levels
from tools.rows.limit_rows import (
    full_log,
    long_record_without_space,
    longest_object,
    many_locks,
    many_log_blocks,
    many_names,
    many_objects,
    many_records,
    many_shapes,
    many_words,
    most_objects,
    most_shapes,
    most_transactions,
    printable_words,
)
from tools.rows.name_rows import stopped_imports_of_names, stopped_names
from tools.rows.script_row import read_rows, row_files
from tools.rows.stop_rows import stopped_scripts
from tools.rows.sync_rows import eighth_steps, lost_imports, many_groups, ten_crashes, whole_uberblocks

MADE = [
    bad_lines,
    silent_lines,
    whole_uberblocks,
    eighth_steps,
    many_groups,
    many_objects,
    many_records,
    full_log,
    long_record_without_space,
    many_locks,
    many_shapes,
    most_shapes,
    many_names,
    printable_words,
    many_words,
    most_transactions,
    most_objects,
    longest_object,
    many_log_blocks,
    stopped_syncs,
    stopped_imports,
    lost_log_blocks,
    lost_parts,
    syncs_beside_log,
    syncs_beside_long_records,
    stopped_replays,
    stopped_replays_of_long_records,
    stopped_names,
    stopped_imports_of_names,
    ten_crashes,
    lost_imports,
    stopped_levels,
    stopped_replays_of_levels,
    rooms,
]


def all_rows():
    written = {path.name: read_rows(path) for path in row_files()}
    rows = [row for rows in written.values() for row in rows]
    yield from rows
    for make in MADE:
        yield from make()
    yield from stopped_scripts(written["log.rows"] + written["long_records.rows"], rows)
