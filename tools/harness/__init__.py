"""How a built program is run: its input, its limits, its files, and what stands before its system calls."""
