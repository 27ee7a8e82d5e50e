"""Finds the tools, lists them and runs one.

A tool is a file of a folder of `FOLDERS`, and its name is that of the file. The first line of its text says what it
does. `add_arguments` names its words for `argparse`, if it takes any. `main` gets them by name, and returns the status:
0 or None if all is well, 1 if what it judges is wrong, 2 if it can't judge.
"""

import argparse
import ast
import importlib
import pathlib
import sys

from tools import Failed

FOLDERS = ["checks", "costs", "pictures", "repository"]
HERE = pathlib.Path(__file__).parent


def tools():
    """The files of the tools by their names, in the order of their folders."""
    paths = [path for folder in FOLDERS for path in sorted((HERE / folder).glob("*.py"))]
    return {path.stem: path for path in paths if path.stem != "__init__"}


def summary(path):
    """The first line of a file's text."""
    return ast.get_docstring(ast.parse(path.read_text())).splitlines()[0]


def module_of(path):
    return importlib.import_module(f"tools.{path.parent.name}.{path.stem}")


def parser_of(name, module):
    """What reads the words of a tool."""
    form = argparse.RawDescriptionHelpFormatter
    parser = argparse.ArgumentParser(f"python3 tools {name}", description=module.__doc__, formatter_class=form)
    if hasattr(module, "add_arguments"):
        module.add_arguments(parser)
    return parser


def print_tools():
    print("usage: python3 tools NAME [WORDS]\n\nWith --help after its name a tool says what it takes.")
    paths = tools()
    width = max(map(len, paths))
    for folder in FOLDERS:
        print(f"\n{folder}: {summary(HERE / folder / '__init__.py')}\n")
        for name, path in paths.items():
            if path.parent.name == folder:
                print(f"  {name:{width}}  {summary(path)}")


def run(name, words):
    """The status of a tool that runs with these words."""
    module = module_of(tools()[name])
    try:
        return module.main(**vars(parser_of(name, module).parse_args(words))) or 0
    except Failed as failed:
        print(failed.reason, file=sys.stderr)
        return failed.status


def main(words):
    if not words or words[0] in ("-h", "--help"):
        print_tools()
        return 0
    name, *rest = words
    if name not in tools():
        print(f"{name} is no tool: `python3 tools` lists them", file=sys.stderr)
        return 2
    return run(name, rest)
