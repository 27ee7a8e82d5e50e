"""Tests of the other folders, which need no built program."""
