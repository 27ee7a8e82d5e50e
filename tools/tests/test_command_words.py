import unittest

from tools.repository import command_words
from tools.repository.command_words import COMPLETION, MAN, PAGE, SOURCES

SOURCE = '''
pub(crate) const FILE: Word = Word {
    name: "FILE",
    form: Form::Place(Takes::Text),
    rule: Rule::Needed,
    help: "",
};

pub(crate) const OFFSET: Word = Word {
    name: "offset",
    form: Form::Valued("O", Takes::Text),
    rule: Rule::Free,
    help: "",
};

const MOMENT: Word = Word {
    name: "moment",
    form: Form::Valued("M", Takes::Number(0, 9)),
    rule: Rule::Default("0"),
    help: "",
};

const QUIET: Word = Word {
    name: "quiet",
    form: Form::Letter('q'),
    rule: Rule::Free,
    help: "",
};

const COMMANDS: [CommandWords; 2] = [
    CommandWords {
        name: "put",
        about: "Puts",
        words: &[
            FILE,
            OFFSET,
            MOMENT,
        ],
    },
    CommandWords {
        name: "show",
        about: "Shows",
        words: &[FILE],
    },
];

const OPTIONS: [Word; 1] = [QUIET];
'''
COMMANDS = "**`ztxg put FILE [--offset O] [--moment M]`** and `ztxg show FILE`.\n\n| option | what it does |\n|---|---|\n| `-q`, `--quiet` | no cause |\n\n"
MANUAL = r'''.SH COMMANDS
.TP
.BI "put " FILE " \fR[\fP\-\-offset \fIO\fR] [\fP\-\-moment \fIM\fR]\fP"
Put.
.TP
.BI "show " FILE
Show.
.SH OPTIONS
.TP
.BR \-q ", " \-\-quiet
.TP
.BI \-\-moment " M"
.SH FILES
'''
BASH = '''        case $word in
            put|show) command=$word; break ;;
        esac
        COMPREPLY=($(compgen -W "put show help -q --quiet -h" -- "$word"))
    local options="-q --quiet -h --help"
        put) options+=" --offset --moment" ;;
'''


class CommandWords(unittest.TestCase):
    sources = {SOURCES: SOURCE, PAGE: COMMANDS, MAN: MANUAL, COMPLETION: BASH}

    def faults(self, path, text):
        return list(command_words.faults({**self.sources, path: text}))

    def test_nothing_is_found_if_all_agree(self):
        self.assertEqual(list(command_words.faults(self.sources)), [])

    def test_an_option_that_one_lacks_is_found(self):
        self.assertEqual(self.faults(PAGE, COMMANDS.replace(" [--moment M]", "")), [f"{PAGE}: put differs in --moment"])
        self.assertEqual(self.faults(COMPLETION, BASH.replace("--offset", "")), [f"{COMPLETION}: put differs in --offset"])
        self.assertEqual(self.faults(MAN, MANUAL.replace(r"[\fP\-\-moment \fIM\fR]", "")), [f"{MAN}: put differs in --moment"])
        without = MANUAL.replace(r"""\-q ", " \-\-quiet""", "")
        self.assertIn(f"{MAN}: the options of all commands differ in --quiet -q", self.faults(MAN, without))

    def test_a_command_that_one_lacks_is_found(self):
        self.assertEqual(self.faults(PAGE, COMMANDS.replace("ztxg show", "show")), [f"{PAGE} lacks the command show"])
        self.assertEqual(self.faults(COMPLETION, BASH.replace('"put show', '"put')), [f"{COMPLETION} lacks the command show"])
        self.assertEqual(self.faults(MAN, MANUAL.replace('"show "', '"view "')), [f"{MAN} lacks the command show", f"{MAN} has the command view"])

    def test_an_option_that_only_the_page_has_is_found(self):
        more = COMMANDS.replace("ztxg show FILE", "ztxg show FILE [--all]")
        self.assertEqual(self.faults(PAGE, more), [f"{PAGE}: show differs in --all"])
        shared = COMMANDS.replace("| no cause |\n", "| no cause |\n| `--wait S` | waits |\n")
        self.assertEqual(self.faults(PAGE, shared), [f"{PAGE}: the options of all commands differ in --wait"])
