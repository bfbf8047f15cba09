"""The longest lines of a report that `verify` reads."""
from common import PROGRAM, ToolCase, put, run, text_of

LONGEST = 600_000  # bytes of the line of the assignment before its LF


class NinthLine(ToolCase):
    def verify_with_ninth(self, length):
        """Judges a report whose ninth line has so many bytes and whose first entry line is wrong."""
        lines = text_of("report").splitlines()
        lines[8] = "assignment " + "0" * (length - len("assignment "))
        lines[10] = "0 0 0 0 shift 0:0>0 done 1"
        put("long", "\n".join(lines) + "\n")
        ran = run(PROGRAM, "verify", "model", "initial", "long", "7:10", "8:10")
        return ran.returncode, ran.stdout, ran.stderr

    def test_the_longest(self):
        """It is not too long, so the first wrong entry line is told."""
        self.assertEqual(self.verify_with_ninth(LONGEST), (9, "", "wrong line 11\n"))

    def test_one_byte_more(self):
        """A line that is too long is told before any entry line."""
        self.assertEqual(self.verify_with_ninth(LONGEST + 1), (9, "", "wrong line 9\n"))
