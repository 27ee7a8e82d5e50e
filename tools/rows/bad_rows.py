"""Rows of lines that are no commands, and of comments, which some bytes make hard to write in a file."""

from tools.model.layout import MAX_COPIES
from tools.rows.script_row import BAD_COMMAND, Row

# Lines that are no commands. Each follows lines after which a line of the right form would be answered: there is a
# pool, a group is being synced, and one write is unflushed.
BAD_LINES = [
    b"create tank +7",
    b"create tank 18446744073709551616",
    b"create tank",
    b"create  77",
    b"create tank 77\r",
    b" create tank 77",
    "create tank 7\u00e9".encode(),
    b"create t\xff 77",
    b"Create tank 77",
    b"lock 1 1 x 0 4",
    b"lock 4294967296 1 w 0 4",
    b"begin 1 c:1:2",
    b"begin 1 c:1 x:1",
    b"begin 1 D:1",
    b"begin 1 d",
    b"begin 1 d:",
    b"begin 1 d:1:2",
    b"begin 1 d:4294967296",
    b"begin 1 w:1:2",
    b"begin 1 l:1",
    b"begin 1 l:1:2:3",
    b"begin 1 l:4294967296:2",
    b"begin 1 l:1:18446744073709551616",
    b"begin 1 n",
    b"begin 1 n:tank",
    b"begin 1 n:1:2",
    b"begin 1 n:18446744073709551616",
    "commit 0 \u00e9".encode(),
    b"abort",
    b"abort x",
    b"abort 0 1",
    b"abort 18446744073709551616",
    b"commit 0 @0:a",
    f"commit 0 @{MAX_COPIES + 1}:a".encode(),
    b"commit 0 @4",
    b"crash x",
    b"fail sync 1",
    b"append 1",
    b"length x",
    b"name tank",
    b"status 9",
    b"log-write 1",
    b"log-flush x",
    b"log",
    b"durable 1",
    b"durable 1 9 9",
    b"durable 1 x",
]


def bad_lines():
    for number, line in enumerate(BAD_LINES, 1):
        row = Row(f"no command, {number}")
        row.say_all("""
create tank 77 -> ok
import 1048576 -> synced 8 open 9 records 0
close -> open 10
quiesce -> quiesced 9
start -> syncing 9
step -> more
step -> more
""")
        row.say(line, f"line 8: {BAD_COMMAND}")
        yield row


def silent_lines():
    row = Row("comments have any bytes, and print nothing")
    for line in [b"#\xff", b"# \xc3", b""]:
        row.say(line)
    row.say("nothing", f"line 4: {BAD_COMMAND}")
    yield row
    row = Row("empty lines count as lines")
    for _ in range(2_000):
        row.say("")
    row.say("nothing", f"line 2001: {BAD_COMMAND}")
    yield row
    row = Row("nothing comes after a bad line")
    row.say("create tank 77", "ok")
    row.say("")
    row.say("# a comment")
    row.say("nothing", f"line 4: {BAD_COMMAND}")
    row.say("close")
    yield row
