"""Compares the commands of the program and their options in the source, COMMANDS.md, the man page and the completion.

A command or an option that one of them lacks is a fault. Read are:

- `crates/command_line/src`: the constants of `Word`, and which of them each `CommandWords` and `OPTIONS` list;
- docs/COMMANDS.md: `ztxg NAME ..` in code, and the table of the options that each command takes;
- docs/ztxg.1: the entries of "COMMANDS" and "OPTIONS";
- docs/ztxg.bash: the words of each command.

An option has its letter, if it has one; `-h` stands for the help, also where it means more. The help is made from the
source.
"""

import re

from tools import TOP

SOURCES = "crates/command_line/src"
PAGE, MAN, COMPLETION = "docs/COMMANDS.md", "docs/ztxg.1", "docs/ztxg.bash"
# The parser's own.
OWN = {"-h", "--help", "-V", "--version"}

WORD = re.compile(r'^(?:pub(?:\(crate\))? )?const (\w+): Word = Word \{\n\s*name: "([\w-]+)",\n\s*form: Form::(.*),$', re.M)
COMMAND = re.compile(r'\bCommandWords \{\n\s*name: "(\w+)",.*?\bwords: &\[(.*?)\]', re.S)
SHARED = re.compile(r"\bconst OPTIONS: \[Word; \d+\] = \[(.*?)\];", re.S)
LETTER = re.compile(r"Letter\('(\w)'\)")
WORDS = re.compile(r"(?<![\w-])--?[a-zA-Z][\w-]*")


def options_of(constant, words):
    """The option that a constant of a word is, with its letter. A word in its place is none."""
    name, form = words[constant]
    return set() if form.startswith("Place") else {f"--{name}", *(f"-{letter}" for letter in LETTER.findall(form))}


def of_source(text):
    """The options of each command, and those of all commands."""
    words = {constant: (name, form) for constant, name, form in WORD.findall(text)}

    def options(listed):
        return {option for constant in re.findall(r"\w+", listed) for option in options_of(constant, words)}

    shared = SHARED.search(text)
    commands = {name: options(listed) - OWN for name, listed in COMMAND.findall(text)}
    return commands, options(shared[1]) if shared else set()


def of_page(text):
    """The same of COMMANDS.md."""
    commands = {}
    for name, rest in re.findall(r"`ztxg ([a-z]+)\b([^`]*)`", text):
        commands.setdefault(name, set()).update(WORDS.findall(rest))
    table = text.partition("| option | what it does |\n")[2].partition("\n\n")[0]
    shared = {word for cell in re.findall(r"^\| (.*?) \|", table, re.M) for word in WORDS.findall(cell)}
    return {name: words - shared for name, words in commands.items()}, shared - OWN


def of_man(text):
    """The same of the man page. Of "OPTIONS" these are the options of commands, too."""
    text = re.sub(r"\\f.", " ", text).replace("\\-", "-")
    commands = {}
    entries = text.partition(".SH COMMANDS\n")[2].partition("\n.SH ")[0]
    for line in re.findall(r"^\.TP\n\.B.*", entries, re.M):
        name = re.search(r'"([a-z]+) ', line)[1]
        commands.setdefault(name, set()).update(set(WORDS.findall(line.partition(name)[2])) - OWN)
    options = text.partition(".SH OPTIONS\n")[2].partition("\n.SH ")[0]
    words = {word for line in re.findall(r"^\.TP\n\.B.*", options, re.M) for word in WORDS.findall(line)}
    return commands, words - OWN


def of_completion(text):
    """The same of the completion of `bash`."""
    case = re.search(r"^\s*([a-z|]+)\) command=", text, re.M)
    commands = {name: set() for name in case[1].split("|")} if case else {}
    for names, words in re.findall(r'^\s*([a-z|]+)\) options\+?="(.*?)"', text, re.M):
        for name in names.split("|"):
            commands.setdefault(name, set()).update(words.split())
    shared = re.search(r'local options="(.*?)"', text)
    own = set(shared[1].split() if shared else []) | OWN
    first = re.search(r'compgen -W "([^$"]*)"', text)
    listed = {word for word in (first[1].split() if first else []) if not word.startswith("-")} - {"help"}
    for name in listed ^ commands.keys():
        commands.pop(name, None)
    return {name: words - own for name, words in commands.items()}, own - OWN


def differences(place, found, wanted):
    """How the commands of a place and their options differ from those of the source."""
    commands, shared = found
    wanted_commands, wanted_shared = wanted
    for name in sorted(commands.keys() | wanted_commands.keys()):
        if name not in commands or name not in wanted_commands:
            yield f"{place} {'lacks' if name not in commands else 'has'} the command {name}"
        elif commands[name] != wanted_commands[name]:
            yield f"{place}: {name} differs in {' '.join(sorted(commands[name] ^ wanted_commands[name]))}"
    if shared != wanted_shared:
        yield f"{place}: the options of all commands differ in {' '.join(sorted(shared ^ wanted_shared))}"


def faults(sources):
    """What differs in sources, by their paths."""
    wanted = of_source(sources[SOURCES])
    if not wanted[0]:
        yield f"{SOURCES} has no command that this tool finds"
        return
    yield from differences(PAGE, of_page(sources[PAGE]), wanted)
    yield from differences(COMPLETION, of_completion(sources[COMPLETION]), wanted)
    commands, options = of_man(sources[MAN])
    # Options with a value that several commands take stand under "OPTIONS" alone.
    every = set().union(*wanted[0].values()) | wanted[1]
    described = options | set().union(*commands.values())
    yield from differences(MAN, (commands, options & wanted[1]), wanted)
    if described != every:
        yield f"{MAN}: its options differ in {' '.join(sorted(described ^ every))}"


def main():
    sources = {path: (TOP / path).read_text() for path in (PAGE, MAN, COMPLETION)}
    sources[SOURCES] = "\n".join(path.read_text() for path in sorted((TOP / SOURCES).glob("*.rt")))
    found = [f"command_words: {fault}" for fault in faults(sources)]
    print("\n".join(found) or "the commands and options of the source, the page, the man page and the completion agree")
    return int(bool(found))
