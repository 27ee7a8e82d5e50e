import unittest

from tools.repository import c_manual

HEADER = """
enum {
    /* Refusals. */
    TOPZERAD_OK = 0,
    TOPZERAD_BUSY = 14
};
#define TOPZERAD_VERSION "1.2.3"
#define TOPZERAD_MAX_NAME 64u /* bytes */
typedef struct {
    uint64_t group, records; /* a field */
} topzerad_opening;
typedef struct {
    uint8_t *bytes;
} topzerad_tx;
/* Opens by `int topzerad_nothing(void);`. */
int topzerad_open(topzerad *pool, const char *program,
                  char name[TOPZERAD_MAX_NAME + 1]);
const char *topzerad_cause(void);
"""
PAGE = r""".TH TOPZERAD 3
.SH SYNOPSIS
.nf
.BI "int topzerad_open(topzerad *" pool ", const char *" program ,
.BI "    char " name "[TOPZERAD_MAX_NAME + 1]);"
.B "const char *topzerad_cause(void);"
.fi
.SH CALLS
.TP
.BR topzerad_open ", " topzerad_cause
Opens, at most TOPZERAD_MAX_NAME 64.
.TP
.B 14 TOPZERAD_BUSY
.SH STRUCTURES
.I topzerad_opening
has the
.I group
and
.IR records .
"""


class Page(unittest.TestCase):
    def faults(self, header=("", ""), page=("", "")):
        """The faults once a text of the header or of the page is another one."""
        for text, (old, _) in ((HEADER, header), (PAGE, page)):
            self.assertIn(old, text)
        return list(c_manual.faults(HEADER.replace(*header), PAGE.replace(*page)))

    def test_what_macros_show(self):
        for line, shown in [
            (r'.BI "a *" b ");"', "a *b);"),
            (r".B \-a b", "-a b"),
            (r"\fBa\fP \(lqb\(rq \e", 'a "b" \\'),
        ]:
            self.assertEqual(c_manual.plain(line), shown)

    def test_equal_ones_have_no_fault(self):
        self.assertEqual(self.faults(), [])

    def test_a_call_that_is_missing_or_has_other_words(self):
        cause = "const char *topzerad_cause(void);"
        self.assertEqual(
            self.faults(page=(f'.B "{cause}"\n', "")), [f"the synopsis has `None`, and the header `{cause}`"]
        )
        other = ("const char *program", "char *program")
        self.assertEqual(len(self.faults(header=other)), 1)
        self.assertEqual(self.faults(page=(', " topzerad_cause', "")), ["topzerad_cause has no entry"])
        self.assertEqual(len(self.faults(page=("(void)", "(int)"))), 1)

    def test_a_call_that_the_header_lacks(self):
        more = (".fi", ".B void topzerad_more(void);\n.fi")
        wanted = ["the synopsis has `void topzerad_more(void);`, and the header `None`"]
        self.assertEqual(self.faults(page=more), wanted)

    def test_refusals_limits_and_fields(self):
        for page, fault in [
            (("14 TOPZERAD_BUSY", "15 TOPZERAD_BUSY"), "14 TOPZERAD_BUSY has no entry"),
            (("TOPZERAD_MAX_NAME 64", "TOPZERAD_MAX_NAME 65"), "it doesn't name TOPZERAD_MAX_NAME 64"),
            ((".IR records .", "others"), "it doesn't name records"),
            ((".I topzerad_opening", "It"), "it doesn't name topzerad_opening"),
        ]:
            self.assertEqual(self.faults(page=page), [fault])
