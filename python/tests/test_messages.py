"""The log as data."""

import pickle
import random
import unittest

import btx
from btx import Kind, Met, Severity
from tests.jobs import FILES, with_style

ROWS = [
    (b"The top-level auxiliary file: my job.aux", dict(kind=Kind.TOP_FILE, file="my job.aux")),
    (b"A level-1 auxiliary file: ch/one.aux", dict(kind=Kind.AUX_FILE, file="ch/one.aux")),
    (b"The style file: plain.bst", dict(kind=Kind.STYLE_FILE, file="plain.bst")),
    (b"Database file #12: refs.bib", dict(kind=Kind.DATABASE_FILE, file="refs.bib")),
    (b"Database file #x: refs.bib", dict(kind=Kind.SHOWN, file=None)),
    (b"Error--I was expecting an =--line 7 of file refs.bib", dict(kind=Kind.ERROR, text="I was expecting an =", file="refs.bib", line=7)),
    (b"Error--a--line 3 of file b--line 4 of file c", dict(kind=Kind.ERROR, text="a--line 3 of file b", file="c", line=4)),
    (b"Warning--line x of file y", dict(kind=Kind.WARNING, text="line x of file y", file=None, line=None)),
    (b"Warning--" + b"--line 1" * 3, dict(kind=Kind.WARNING, file=None)),
    (b"Warning--x--line " + b"9" * 30 + b" of file d.bib", dict(kind=Kind.WARNING, line=None)),
    (b'Error--"Cy" is not an integer while executing format.name$ for entry kay',
     dict(kind=Kind.ERROR, text='"Cy" is not an integer', function="format.name$", entry="kay")),
    (b"Error--The literal stack isn't empty while executing EXECUTE", dict(kind=Kind.ERROR, function="EXECUTE", entry=None)),
    (b"Warning--string of 300 bytes cut to 250 while executing := for entry ", dict(kind=Kind.WARNING, function=":=", entry="")),
    (b"Ended: finished, warnings 0, errors 0, steps 4", dict(kind=Kind.ENDED, text="Ended: finished, warnings 0, errors 0, steps 4")),
    (b'"shown"', dict(kind=Kind.SHOWN, text='"shown"')),
    (b"", dict(kind=Kind.SHOWN, text="")),
    (b"Warning--\xff", dict(kind=Kind.WARNING, text="\udcff")),
]


class Lines(unittest.TestCase):
    def test_each_shape(self):
        for line, wanted in ROWS:
            with self.subTest(line=line):
                (message,) = btx.messages_of(line + b"\n")
                self.assertEqual({name: getattr(message, name) for name in wanted}, wanted)
                self.assertEqual(message.raw, line)

    def test_joined_again_they_are_the_log(self):
        maker = random.Random(7)
        words = [line for line, _ in ROWS] + [b"--line ", b" of file ", b" while executing ", b" for entry ", b"Error--", b"Warning--", b"\xff", b"3"]
        for number in range(300):
            lines = [b"".join(maker.choices(words, k=maker.randrange(4))) for _ in range(maker.randrange(12))]
            log = b"".join(line + b"\n" for line in lines)
            self.assertEqual(b"".join(message.raw + b"\n" for message in btx.messages_of(log)), log, number)

    def test_of_runs(self):
        files = with_style(b'FUNCTION {f} {title #1 * "w" warning$ #7 top$} ITERATE {f} nonsense')
        result = btx.run("job", {**files, "d.bib": b"@misc{k, title 1}"})
        self.assertEqual(b"".join(message.raw + b"\n" for message in result.messages), result.log)
        errors = [message for message in result.messages if message.kind is Kind.ERROR]
        self.assertEqual(len(errors), result.report.errors)
        warnings = [message for message in result.messages if message.kind is Kind.WARNING]
        self.assertEqual(len(warnings), result.report.warnings)
        self.assertEqual({message.file for message in errors if message.line}, {"d.bib", "s.bst"})
        self.assertIn(("*", "k"), {(message.function, message.entry) for message in errors})

    def test_a_style_imitates_no_error(self):
        imitated = [line for line, _ in ROWS] + [b"Error--x", b"Ended: stopped, warnings 0, errors 0, steps 4"]
        shown = b" ".join(b'"%s" top$ "x" #10 int.to.chr$ * "%s" * warning$' % (line.replace(b'"', b"'"), line.replace(b'"', b"'")) for line in imitated)
        result = btx.run("job", with_style(b"FUNCTION {f} {" + shown + b"} ITERATE {f} EXECUTE {f}"))
        met = [message for message in result.messages if message.met is Met.EXECUTION]
        self.assertEqual([message.kind for message in met], [Kind.SHOWN, Kind.WARNING] * len(imitated) * 2)
        self.assertEqual({(message.file, message.line, message.function, message.entry) for message in met}, {(None, None, None, None)})
        self.assertEqual([message.number for message in met], [0] * len(imitated) * 2 + [None] * len(imitated) * 2)
        self.assertEqual((result.report.errors, sum(message.severity is Severity.ERROR for message in result.messages)), (0, 0))
        self.assertEqual([message.kind for message in result.messages].count(Kind.ENDED), 1)
        self.assertEqual(b"".join(message.raw + b"\n" for message in result.messages), result.log)

    def test_offsets(self):
        result = btx.run("job", with_style(b'FUNCTION {f} {title #1 * "a" #10 int.to.chr$ * top$} ITERATE {f} nonsense'))
        for message in [*result.messages, *btx.messages_of(result.log)]:
            self.assertTrue(result.log.startswith(message.raw + b"\n", message.offset))
        self.assertEqual([message.offset for message in result.messages], [event.offset for event in result.events])

    def test_places(self):
        style = b'\nFUNCTION {f} {title #1 * "w" warning$\n  \xc3\xa4 #7 top$} ITERATE {f} EXECUTE {pop$}\n\nnonsense'
        files = {**with_style(style), "d.bib": b"@misc{k, title = foo #\n}"}
        result = btx.run("job", files)
        shown = {message.text: message.place for message in result.messages}
        self.assertEqual((shown["w"].file, shown["w"].line, shown["w"].function, shown["w"].token), ("s.bst", 2, 1, 4))
        unknown = shown["\xe4 is an unknown function"]
        self.assertEqual((unknown.line, unknown.function, unknown.token, unknown.column(files["s.bst"])), (3, None, None, 3))
        shown_place = shown["7"]
        self.assertEqual((files["s.bst"][slice(*shown_place.span)], shown_place.column(files["s.bst"])), (b"top$", 8))
        database = shown["I was expecting a value"]
        self.assertEqual((database.file, database.line, database.span, database.column(files["d.bib"])), ("d.bib", 2, (23, 23), 1))
        # (no token is executed there: it is the command)
        command = shown["You can't pop an empty literal stack"]
        self.assertEqual((files["s.bst"][slice(*command.span)], command.line, command.function, command.token), (b"EXECUTE", 3, None, None))
        for message in result.messages:
            if message.line is not None:
                self.assertEqual((message.file, message.line), (message.place.file, message.place.line))
        self.assertEqual([message.place for message in result.messages], [event.place for event in result.events])
        self.assertEqual({message.place for message in btx.messages_of(result.log)}, {None})

    def test_more_lines_than_have_room_at_first(self):
        result = btx.run("job", with_style(b"INTEGERS {n} FUNCTION {f} {#70000 'n := {n #0 >} {n top$ n #1 - 'n :=} while$} EXECUTE {f} nonsense"))
        self.assertEqual((len(result.messages), result.messages[-2].severity), (70005, Severity.ERROR))
        self.assertEqual(pickle.loads(pickle.dumps(result)), result)

    def test_a_long_line(self):
        log = b'Warning--A bad cross reference--entry "' + b'" refers to entry "' * 50_000 + b"--line " * 50_000 + b"\n"
        self.assertEqual(btx.messages_of(log)[0].raw + b"\n", log)

    def test_of_a_refused_database(self):
        result = btx.run("job", {name: content for name, content in FILES.items() if name != "d.bib"})
        self.assertEqual([message.text for message in result.messages if message.kind is Kind.ERROR], ["I couldn't open database file d.bib"])


if __name__ == "__main__":
    unittest.main()
