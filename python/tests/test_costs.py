"""What the doctor's command costs: what it reads at its start, and how many calls Python makes for an entry. Both are counted, so that a loaded machine changes nothing."""

import argparse
import contextlib
import io
import pathlib
import subprocess
import sys
import unittest

import btx
from btx.checkup import Remedies, print_findings
from btx.doctor import Source, examine

ENTRIES = 300
BEGINS = b'@string{ack = "A # B"}\n'
ENTRY = b"""@Article{key%d,
  author =       "Ann Lee and Bo Ray and {Some Group}",
  title =        "Typesetting with {\\TeX} and {\\LaTeX}: part %d",
  journal =      "A Journal of Things",
  volume =       "%d",
  pages =        "11--22",
  month =        jan # "\\slash " # feb,
  year =         "2000",
  url =          "https://example.org/a_b#%d",
  bibdate =      "Mon Jan 1 00:00:00 2000",
  bibsource =    "https://example.org/all.bib # 1",
  acknowledgement = ack # ", with thanks",
}

"""
# How many calls one of these entries takes at most, of the package's functions and of Python's own: one that is read, and one that is repeated, whose title is compared with that of the first. (They took 148
# and 123 when this was written, and 352 and 170 where each finding was printed by itself and each value was looked through anew.)
MOST_CALLS = {"whole": 160, "repeated": 130}


def calls_of(text):
    """How many calls it takes to examine a database and to print what is found."""
    count = [0]

    def note(frame, event, called):
        count[0] += event in ("call", "c_call")

    given = argparse.Namespace(json=False, each=False)
    with contextlib.redirect_stdout(io.StringIO()):
        sys.setprofile(note)
        try:
            sources, kept = [Source("d.bib", text)], {}
            found = examine(sources, kept=kept)
            print_findings(found, Remedies(sources, None, kept), given)
        finally:
            sys.setprofile(None)
    return count[0]


class Costs(unittest.TestCase):
    def test_an_entry_takes_few_calls(self):
        whole = [ENTRY % (number, number, number, number) for number in range(ENTRIES)]
        once, twice = (calls_of(BEGINS + b"".join(made)) for made in (whole[: ENTRIES // 2], whole))
        again = calls_of(BEGINS + b"".join(whole) * 2)
        found = {"whole": (twice - once) / (ENTRIES // 2), "repeated": (again - twice) / ENTRIES}
        for what, most in MOST_CALLS.items():
            with self.subTest(what):
                self.assertLessEqual(found[what], most)

    def test_a_command_reads_the_modules_that_it_needs(self):
        asked = "import sys, btx.__main__, btx.checkup; print(*sorted(name[4:] for name in sys.modules if name.startswith('btx.')))"
        beside = pathlib.Path(btx.__file__).parents[1]
        words = subprocess.run([sys.executable, "-c", asked], cwd=beside, stdout=subprocess.PIPE, check=True, text=True).stdout.split()
        self.assertIn("doctor", words)
        others = {"checking", "corpus", "doctor_run", "document_checks", "half_letters", "jobs", "letter_values", "letters", "outputs", "reports", "running", "style_keys", "trying", "version"}
        self.assertEqual(others.intersection(words), set())


if __name__ == "__main__":
    unittest.main()
