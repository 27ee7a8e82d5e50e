"""The formats, a pool and a load, worked out from docs/FORMATS.md, SCRIPTS.md and FRAMES.md with nothing of a program."""
