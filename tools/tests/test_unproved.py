import pathlib
import subprocess
import tempfile
import unittest

from tools import Failed
from tools.harness import unproved

HELP = '//! Help.\n\npub const VERSION: &str = "1.2.3 (kit-4 logic abc)";\n'


class Version(unittest.TestCase):
    def setUp(self):
        room = tempfile.TemporaryDirectory()
        self.addCleanup(room.cleanup)
        self.top = pathlib.Path(room.name)

    def put(self, name):
        source = self.top / "crates" / name / "src/help.rt"
        source.parent.mkdir(parents=True)
        source.write_text(HELP)
        return source

    def test_it_says_unproved(self):
        source = self.put("one")
        unproved.say_unproved(self.top)
        self.assertEqual(source.read_text(), HELP.replace("kit-4 logic abc", "unproved"))

    def test_one_file_has_it(self):
        for name in ("one", "two"):
            self.put(name)
        with self.assertRaises(Failed):
            unproved.say_unproved(self.top)


class Clang(unittest.TestCase):
    def test_a_fast_program_has_no_sanitizer(self):
        words = ["-c", "-x", "ir", "module.bc", "-o", "module.o", "-O0", "-fsanitize=address"]
        self.assertEqual(unproved.optimised(words), [*words[:6], "-O2"])

    def test_the_module_of_the_program_is_kept_and_another_is_compiled(self):
        with tempfile.TemporaryDirectory() as room:
            kept = pathlib.Path(room, "the kept")
            kept.mkdir()
            clang = pathlib.Path(room, "clang")
            clang.write_text(unproved.keeper("echo", kept))
            clang.chmod(0o755)
            pathlib.Path(room, "module.bc").write_bytes(b"a module")
            other = subprocess.run([clang, "-c", "module.bc", "-O0"], cwd=room, capture_output=True, text=True)
            self.assertEqual((other.returncode, other.stdout), (0, "-c module.bc -O0\n"))
            self.assertEqual(list(kept.iterdir()), [])
            own = subprocess.run([clang, "-c", "module.bc", "-O0", unproved.SANITIZER], cwd=room)
            self.assertEqual(own.returncode, 1)
            self.assertEqual((kept / "module.bc").read_bytes(), b"a module")
            self.assertEqual((kept / "words").read_text(), f"-c\nmodule.bc\n-O0\n{unproved.SANITIZER}\n")
