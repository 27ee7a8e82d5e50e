"""`python3 tools NAME [WORDS]` runs a tool, and `python3 tools` lists them."""

import pathlib
import sys

# The folders of the repository keep no compiled files.
sys.dont_write_bytecode = True
sys.path[0] = str(pathlib.Path(__file__).resolve().parent.parent)

from tools.runner import main  # noqa: E402

if __name__ == "__main__":
    sys.exit(main(sys.argv[1:]))
