"""Prints what each file of lemmas proves, by its first lines.

A row has the file, by its crate and its path below `proofs`, and what its first lines say. In `proofs.txt` stands what
is printed in place of first lines that say less. With --check nothing is printed but which file has no first lines,
and which row of `proofs.txt` names no file.
"""

from tools.repository import definitions


def add_arguments(parser):
    parser.add_argument("words", metavar="WORD", nargs="*", help="only files whose crate and path have one of these")
    parser.add_argument("--check", action="store_true", help="look for files that have no first lines")


def main(words=(), check=False):
    files, held = definitions.files_of("proofs"), definitions.held_rows("proofs.txt")
    if check:
        return definitions.checked(files, held, "proofs.txt", "proofs")
    print("| lemmas | what they prove |\n|---|---|")
    for name, path in files.items():
        if definitions.is_wanted(name, words):
            says = held.get(name, [""])[0] or definitions.first_lines(path.read_text())
            print(f"| {name} | {says} |")
    return 0
