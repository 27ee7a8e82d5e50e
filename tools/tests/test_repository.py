import pathlib
import tempfile
import unittest

from tools import runner
from tools.repository import api, believed, build_program, clauses, definitions, mentions, program_crates, prose


class Faults(unittest.TestCase):
    """What each part of `check` has to find, and what it may not."""

    def test_labels_that_no_function_has(self):
        labels = clauses.Labels()
        self.assertEqual(list(labels.wrong_names("`fsync`: `durable`")), [])
        self.assertEqual(list(labels.wrong_names("`fsync`: `durable`, `no_such_label`")), ["no_such_label"])

    def test_brackets(self):
        text = "One (`a`: `b`)\nand `code (c)` (two\nlines).\n\nAn open one ( ends with its\n\nparagraph)."
        self.assertEqual(list(clauses.brackets(text)), [(1, "`a`: `b`"), (2, "two\nlines")])

    def test_rows_of_labels(self):
        text = "| function | labels |\n|---|---|\n| `f` | `a`; `b` |\n\n| `g` | `c` |"
        self.assertEqual(list(clauses.rows(text)), [(3, "`f`: `a`, `b`")])

    def test_signatures(self):
        lines = ["    pub fn f<'a, W: Wait>(", "        &'a mut self,", "        rt: &'a W,", "    ) -> u64", "        ensures { x }"]
        self.assertEqual(api.signature(lines), "pub fn f<W: Wait>(&mut self, rt: &W) -> u64")
        self.assertEqual(api.signature(["pub fn g<'a>(&'a self) -> Handle<'_, D> {"]), "pub fn g(&self) -> Handle<'_, D>")
        doc = ["Commits **all** of [`a`](crate::a): it", "waits. Then more.", "", "Another paragraph."]
        self.assertEqual(api.first_sentence(doc), "Commits all of `a`: it waits.")

    def test_tools_that_are_not_there(self):
        text = "`tools/README.md`, `tools/rows/*.rows`, `python3 tools test`."
        self.assertEqual(list(mentions.faults_of(text, runner.tools())), [])
        # In two parts, since this file is looked at too.
        text = "python3 tools " + "nothing, tools/" + "nothing.py."
        self.assertEqual(len(list(mentions.faults_of(text, runner.tools()))), 2)

    def test_pages_and_parts_that_are_not_there(self):
        text = '`docs/FORMATS.md`, "Log block", and `docs/FORMATS.md` ("Refusals"), docs/PROVED.md, "Hidden steps".'
        self.assertEqual(list(mentions.page_faults(text)), [])
        text = '`docs/FORMATS' + '.md`, "No such part", and `docs/NOTHING' + '.md`.'
        self.assertEqual(len(list(mentions.page_faults(text))), 2)

    def test_long_sentences(self):
        words = " ".join(["word"] * 31)
        table = f"| a cell | `{words}` |\n|---|---|\n| {words} | b |\n"
        self.assertEqual([found[:2] for found in prose.long_sentences(table)], [(3, 31)])
        text = f"{words[:-5]}: then it goes on.\n\n- {words}\n\n```\n{words}\n```\n    {words}\n"
        self.assertEqual([found[:2] for found in prose.long_sentences(text)], [(3, 31)])

    def test_crates_that_are_not_there(self):
        known = program_crates.known_crates()
        self.assertEqual(list(program_crates.faults(known)), [])
        programs = ("durable_load", "engine_checks", "load_receipts")
        wanted = [f"{name} names loads, which is not there" for name in programs]
        self.assertEqual(list(program_crates.faults(known - {"loads"})), wanted)

    def test_crates_that_programs_use(self):
        self.assertEqual(program_crates.crates_of("one may_wait=9: two three # four"), ["two", "three"])
        self.assertEqual(program_crates.used_crates("hash_blocks"), {"anyhow", "sha2"})
        # Those of its modules' modules, too.
        self.assertIn("pool_threads", program_crates.used_crates("engine_checks"))

    def test_sources_of_programs(self):
        with tempfile.TemporaryDirectory() as room:
            crates = pathlib.Path(room)
            crate = build_program.with_sources(crates, "engine_checks")
            self.assertEqual(crate, crates / "engine_checks")
            self.assertTrue((crate / "src/thread_tests/load.rt").is_file())
            files = {path.relative_to(crate / "src") for path in crate.glob("src/**/*.*")}
            self.assertEqual({path.suffix for path in files}, {".rt"})
            # The compiler reads only files that a module names.
            named = {pathlib.Path("lib.rt")}
            for path in files:
                folder = path.parent / path.stem if path.stem != "lib" else path.parent
                modules = program_crates.MODULE.findall((crate / "src" / path).read_text())
                named |= {folder / f"{module}.rt" for module in modules}
            self.assertEqual(files, named)


class FirstLines(unittest.TestCase):
    def test_first_lines_end_at_the_code(self):
        self.assertEqual(definitions.first_lines("-- What holds\n-- of pools.\nuse a\n-- more\n"), "What holds of pools.")
        self.assertEqual(definitions.first_lines("use a\n-- more\n"), "")

    def test_files_without_first_lines_and_rows_of_no_file(self):
        files = definitions.files_of("specs")
        self.assertEqual(list(definitions.faults(files, definitions.held_rows("definitions.txt"), "")), [])
        self.assertEqual(len(list(definitions.faults({}, {"base/none": ["", ""]}, "definitions.txt"))), 1)

    def test_a_row_has_the_source_and_what_is_held_in_place_of_the_first_lines(self):
        files = {name: path for name, path in definitions.files_of("specs").items() if name == "base/steps/Readers"}
        rows = list(definitions.rows(files, {"base/steps/Readers": ["`a.c`", "Says more."]}, (), False))
        self.assertEqual(rows, ["| base/steps/Readers | Says more. | `a.c` |"])


class Believed(unittest.TestCase):
    files = {
        "low/Calls": believed.File("pub data Call : Type 0 where\n  Put : Nat -> Call\n\nabbrev pub unused : Call\nunused = Put zero"),
        "high/Rules": believed.File(
            "use Rattle.base.specs.low.Calls.Call.{Put as Write}\nuse Rattle.base.specs.low.Calls as calls\n"
            "-- Rule is not what it says\nabbrev pub IsLow : Nat -> Type 0\nIsLow n = Write n\n\n"
            "pub record Rule (n : Nat) : Type 0 where\n  pub low : IsLow n\n\nabbrev pub Other : Type 0\nOther = calls.unused"
        ),
    }

    def test_what_a_definition_names_is_listed_and_what_that_names_too(self):
        rows = list(believed.rows(self.files, [("high/Rules", "Rule")]))
        self.assertEqual(rows, ["| high/Rules | `IsLow`, `Rule` |\n", "| low/Calls | `Call` |\n"])

    def test_a_file_may_be_named_by_a_word(self):
        rows = list(believed.rows(self.files, [("high/Rules", "Other")]))
        self.assertEqual(rows, ["| high/Rules | `Other` |\n", "| low/Calls | `Call`, `unused` |\n"])

    def test_a_file_of_another_crate_is_named_with_its_crate(self):
        turns = "\n".join([
            "use Rattle.base.specs.low.Calls.{unused}",
            "module _ {T : Type 0} where",
            "  pub record Turn (t : T) : Type 0 where",
            "    pub last : unused",
        ])
        more = "use Rattle.word_lock.specs.Turns.{Turn}\n\nabbrev pub More : Type 0\nMore = Turn zero"
        files = {**self.files, "word_lock/Turns": believed.File(turns), "high/More": believed.File(more)}
        rows = list(believed.rows(files, [("high/More", "More")]))
        self.assertEqual(
            rows, ["| high/More | `More` |\n", "| low/Calls | `Call`, `unused` |\n", "| word_lock/Turns | `Turn` |\n"]
        )

    def test_a_field_names_no_definition_of_its_name(self):
        turns = "\n".join([
            "use Rattle.base.specs.low.Calls.{unused, Call}",
            "pub record Turn : Type 0 where",
            "  pub unused : Nat",
            "abbrev pub Of : Turn -> Nat",
            "Of t = (one (record { unused = zero; Call = one })).unused",
        ])
        files = {**self.files, "high/Turns": believed.File(turns)}
        places = believed.believed(files, [("high/Turns", "Of")])
        self.assertEqual(places, {("high/Turns", "Of"), ("high/Turns", "Turn")})

    def test_what_stands_between_a_call_and_a_law_is_not_opened(self):
        places = believed.believed(self.files, [("high/Rules", "Rule")], {("high/Rules", "IsLow")})
        self.assertEqual(places, {("high/Rules", "Rule"), ("high/Rules", "IsLow")})
