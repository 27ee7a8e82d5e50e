import contextlib
import io
import unittest

from tools import runner


def printed(*words):
    """The status of the runner, and what it printed."""
    out, errors = io.StringIO(), io.StringIO()
    with contextlib.redirect_stdout(out), contextlib.redirect_stderr(errors):
        status = runner.main(list(words))
    return status, out.getvalue(), errors.getvalue()


class Tools(unittest.TestCase):
    def test_each_tool_has_a_line_of_its_own(self):
        status, out, _ = printed()
        self.assertEqual(status, 0)
        for name in runner.tools():
            self.assertEqual(sum(line.startswith(f"  {name} ") for line in out.splitlines()), 1, name)

    def test_each_tool_names_its_words(self):
        for name, path in runner.tools().items():
            module = runner.module_of(path)
            usage = runner.parser_of(name, module).format_usage()
            self.assertTrue(usage.startswith(f"usage: python3 tools {name}"), usage)
            self.assertTrue(callable(module.main), name)

    def test_what_is_no_tool(self):
        status, out, errors = printed("nothing")
        self.assertEqual((status, out), (2, ""))
        self.assertIn("nothing is no tool", errors)
