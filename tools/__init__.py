"""What makes, checks and measures this repository besides the toolchain (tools/README.md)."""

import pathlib

# The top of the repository.
TOP = pathlib.Path(__file__).resolve().parent.parent


class Failed(Exception):
    """Ends a tool with a reason on standard error, and with a status."""

    def __init__(self, reason, status=1):
        super().__init__(reason, status)
        self.reason, self.status = reason, status
