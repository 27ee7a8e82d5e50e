import unittest

from tools.repository import client_texts

# Two refusals, as each source has them.
SOURCES = {
    "crates/base/src/error.rt": """
    /// No label has a valid uberblock.
    #[error("the device holds \\"no\\" pool")]
    NoPool,
    #[error("block {kind} at {address} is damaged")]
    Damaged {
        match self {
            PoolError::NoPool => 1,
            PoolError::Damaged { .. } => 2,
            PoolError::NoPool => "NoPool",
""",
    "docs/FORMATS.md": """## 9. Others

| 7 | NoTable | of another section |

## 10. Refusals

| n | name | when |
|---|---|---|
| 1 | NoPool | no label is valid |
| 2 | Damaged (kind, address) | a block is not what it should be |

## 11. Others
""",
    "clients/c/topzerad.h": "TOPZERAD_OK = 0,\nTOPZERAD_NO_POOL = 1,\nTOPZERAD_DAMAGED = 2,\nTOPZERAD_FRAME = 100,\n",
    "clients/c/topzerad.c": """
    snprintf(text, sizeof text, "block %" PRIu64 " at %" PRIu64 " is damaged", damage.kind,
    static const char *const texts[] = {
        "done",
        "the device holds \\"no\\" pool",
        "block {kind} at {address} is damaged",
    };
""",
    "clients/rust/src/error.rs": """
            1 => Refusal::NoPool,
            2 => Refusal::Damaged { kind, address },
            Refusal::NoPool => "the device holds \\"no\\" pool",
            Refusal::Damaged { kind, address } => {
                return write!(f, "block {kind} at {address} is damaged");
""",
    "clients/python/pool.py": "EMPTY = ()\nPAIR = (1, 2)\n",
    "clients/python/errors.py": """
NAMES = ("NoPool", "Damaged")
TEXTS = {1: 'the device holds "no" pool', 2: "block {kind} at {address} is damaged"}
""",
}


class Texts(unittest.TestCase):
    def faults(self, path=None, old="", new=""):
        """The faults once a text of a source is another one."""
        sources = dict(SOURCES)
        if path:
            self.assertEqual(sources[path].count(old), 1)
            sources[path] = sources[path].replace(old, new)
        return list(client_texts.faults(sources))

    def test_equal_sources_have_no_fault(self):
        self.assertEqual(self.faults(), [])

    def test_a_difference_is_found_where_it_is(self):
        document, rust, python = "docs/FORMATS.md", "clients/rust/src/error.rs", "clients/python/errors.py"
        header, source = "clients/c/topzerad.h", "clients/c/topzerad.c"
        pools = ("name", 1, "NoPools", "NoPool")
        has = ("text", 1, 'the device has "no" pool', 'the device holds "no" pool')
        bad = ("text", 2, "block {kind} at {address} is bad", "block {kind} at {address} is damaged")
        for path, old, new, (what, number, said, right) in [
            (document, "NoPool", "NoPools", pools),
            (document, "| 2 |", "| 3 |", ("name", 2, None, "Damaged")),
            (header, "POOL = 1", "POOLS = 1", pools),
            (source, "holds", "has", has),
            (source, '" is damaged", damage', '" is bad", damage', bad),
            (rust, "1 => Refusal::NoPool", "1 => Refusal::NoPools", pools),
            (rust, "holds", "has", has),
            (rust, "is damaged", "is bad", bad),
            (python, '"NoPool"', '"NoPools"', pools),
            (python, "holds", "has", has),
        ]:
            found = self.faults(path, old, new)
            self.assertIn(f"{path}: the {what} of {number} is {said!r}, and in base {right!r}", found)

    def test_what_is_not_found_is_a_fault(self):
        found = self.faults("clients/c/topzerad.c", "texts[]", "words[]")
        self.assertEqual(found, ["clients/c/topzerad.c has no texts of refusals that this tool finds"])
        found = self.faults("clients/python/errors.py", '"NoPool", ', "")
        self.assertEqual(found, ["clients/python/errors.py has no names of refusals that this tool finds"])
        found = self.faults("crates/base/src/error.rt", "PoolError::NoPool => 1,", "")
        self.assertEqual(len(found), 1)
